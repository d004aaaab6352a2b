" Scripts of `imakern run` and `imakern label`, list texts of `imakern list`, texts of buffers of
" `imakern buffers`, and carry texts of `imakern carry`.
if exists('b:current_syntax')
  finish
endif
runtime! syntax/imapolicy.vim
unlet! b:current_syntax
silent! syn clear imapolicyComment

" A first word that no line has, and blanks other than one space between two words.
syn match imascriptError /^\S\+/
syn match imascriptError /^\s\+\|\s\+$\|\s\s\+\|\t/
syn match imascriptComment /^#.*/
syn match imascriptHead /^\%(imakern\|imalist\|imabuffers\|imacarry\) 1$\|^end$/
syn match imascriptSetting /^\%(hash\|template\|carried\|boot\|appraise\|evm\|evm_xattrs\|evm_format\) \@=/
syn match imascriptBlock /^\%(fs\|file\|absent\|attr\|task\|caller\|critical\) \@=\|^seal$/
syn match imascriptCall /^\%(open\|read\|write\|ftruncate\|close\|mmap\|mread\|munmap\) \@=/
syn match imascriptCall /^\%(exec\|endexec\|setxattr\|removexattr\|chmod\|chown\|post\|wait\) \@=/
syn match imascriptCall /^\%(module\|firmware\) \@=/
syn match imascriptEnding /^\%(schedule\|threads\) \@=\|^schedule$\|^rounds$/
syn match imascriptField / \@<=\%(magic\|uuid\|name\|fs\|ino\|gen\|mode\|content\|e\=[ug]id\)=/
syn match imascriptWord / \@<=\%(versions\|noversions\|admin\)$/
syn match imascriptWord / \@<=\%(r\|w\|rw\|create\|trunc\|read\|exec\)\S\@!/
syn match imascriptWord /\%(^template \)\@<=ima\%(-ng\|-sig\)\=$/
syn match imascriptWord /\%(^hash \)\@<=\%(md5\|sha1\|sha256\|sha384\|sha512\|sha224\)$/
syn match imascriptWord /\%(^appraise \)\@<=\%(enforce\|log\|fix\|off\)$/
syn match imascriptNumber /[ =]\@<=\d\+\S\@!/
syn match imascriptNumber /\%( magic=\)\@<=\%(0[xX]\)\=\x\{1,16}\S\@!/
syn match imascriptNumber /\%( uuid=\)\@<=\x\{8}-\%(\x\{4}-\)\{3}\x\{12}\S\@!/
syn match imascriptValue /[ =]\@<=\%(hex:\%(\x\x\)*\|txt:[!-~]*\|fill:\d\+:\x\x\)\S\@!/
syn match imascriptPath / \@<=\/\S\+/
syn match imascriptRule /^\%(add\)\=rule .*/ contains=imascriptAdd,@imapolicyRule
syn match imascriptAdd /^\%(add\)\=rule / contained

hi def link imascriptError Error
hi def link imascriptComment Comment
hi def link imascriptHead PreProc
hi def link imascriptSetting PreProc
hi def link imascriptBlock Type
hi def link imascriptAdd Type
hi def link imascriptCall Statement
hi def link imascriptEnding PreProc
hi def link imascriptField Identifier
hi def link imascriptWord Constant
hi def link imascriptNumber Number
hi def link imascriptValue String
hi def link imascriptPath Directory

let b:current_syntax = 'imascript'
