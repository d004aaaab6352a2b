" IMA policies, as `imakern policy` reads them; also the rules in scripts and reports.
if exists('b:current_syntax')
  finish
endif

syn match imapolicyComment /^\s*#.*/
" At the start of a line, after `rule` and `addrule`, and in a report after a place and a step.
let s:before = '\%(^\s*\|^\%(add\)\=rule \%(\d\+ [0-9.]\+ \)\=\)\@<='
let s:action = '\%(dont_\)\=\%(measure\|appraise\|audit\|hash\)\S\@!'
exe 'syn match imapolicyAction /' . s:before . s:action . '/'
syn match imapolicyKey /\S\@<!\%(func\|mask\|fsmagic\|fsuuid\|fsname\|pcr\|template\)=/
syn match imapolicyKey /\S\@<!appraise_\%(type\|flag\|algos\)=/
syn match imapolicyKey /\S\@<!\%(e\=[ug]id\|fowner\|fgroup\)[=<>]/
syn match imapolicyKey /\S\@<!permit_directio\S\@!/
syn match imapolicyValue /\%(\S\@<!func=\)\@<=\%(BPRM\|MMAP\|FILE\|PATH\|CREDS\|MODULE\)_CHECK\S\@!/
syn match imapolicyValue /\%(\S\@<!func=\)\@<=\%(FIRMWARE\|KEY\|SETXATTR\|POLICY\)_CHECK\S\@!/
syn match imapolicyValue /\%(\S\@<!func=\)\@<=KEXEC_\%(KERNEL\|INITRAMFS\)_CHECK\S\@!/
syn match imapolicyValue /\%(\S\@<!func=\)\@<=\%(FILE_MMAP\|KEXEC_CMDLINE\|CRITICAL_DATA\)\S\@!/
syn match imapolicyValue /\%(\S\@<!func=\)\@<=MMAP_CHECK_REQPROT\S\@!/
syn match imapolicyValue /\%(\S\@<!mask=\)\@<=\^\=MAY_\%(READ\|WRITE\|APPEND\|EXEC\)\S\@!/
syn match imapolicyValue /\%(\S\@<!template=\)\@<=ima\%(-ng\|-sig\)\=\S\@!/
syn match imapolicyValue /\%(\S\@<!appraise_type=\)\@<=imasig\S\@!/
syn match imapolicyValue /\%(\S\@<!appraise_flag=\)\@<=check_blacklist\S\@!/
syn match imapolicyAlgos /\%(\S\@<!appraise_algos=\)\@<=\S\+/ contains=imapolicyAlgo
syn match imapolicyAlgo /[=,]\@<=\%(md5\|sha1\|sha256\|sha384\|sha512\|sha224\)[^ \t,]\@!/ contained
syn match imapolicyNumber /\%(\S\@<!pcr=\|\S\@<!\%(e\=[ug]id\|fowner\|fgroup\)[=<>]\)\@<=\d\+\S\@!/
syn match imapolicyNumber /\%(\S\@<!fsmagic=\)\@<=\%(0[xX]\)\=\x\{1,16}\S\@!/
syn match imapolicyNumber /\%(\S\@<!fsuuid=\)\@<=\x\{8}-\%(\x\{4}-\)\{3}\x\{12}\S\@!/
" Keys that the kernel knows and imakern doesn't.
syn match imapolicyError /\S\@<!\%(subj\|obj\)_\%(user\|role\|type\)=\S*/
syn match imapolicyError /\S\@<!\%(keyrings\|label\|digest_type\|fs_subtype\)=\S*/
syn cluster imapolicyRule contains=imapolicyAction,imapolicyKey,imapolicyValue,imapolicyAlgos
syn cluster imapolicyRule add=imapolicyNumber,imapolicyError

hi def link imapolicyComment Comment
hi def link imapolicyAction Statement
hi def link imapolicyKey Identifier
hi def link imapolicyValue Constant
hi def link imapolicyAlgo Constant
hi def link imapolicyNumber Number
hi def link imapolicyError Error

let b:current_syntax = 'imapolicy'
