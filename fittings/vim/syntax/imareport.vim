" Reports of `imakern run`, also with the trail of `imakern audit` after them.
if exists('b:current_syntax')
  finish
endif
runtime! syntax/imapolicy.vim
unlet! b:current_syntax
silent! syn clear imapolicyComment

syn match imareportHead /^imakern report 1$\|^end$/
syn match imareportHead /^run done$\|^task \d\+ done$/
syn match imareportBad /^run \%(stuck\|unfinished\)$\|^task \d\+ unfinished$/
syn match imareportBlock /^list \d\+ violations \d\+$\|^appended \d\+$/
syn match imareportBlock /^inode \d\+ \S\+ writers \d\+ readers \d\+ execs \d\+$/
syn match imareportBlock /^attrs \d\+$\|^events \d\+$/
syn match imareportBlock /^force \@=\|^pcr sha1 \@=\|^pcr sha256 \@=/
syn match imareportDigest /\%(^force [a-z0-9]\+\|^pcr sha\d\+ \d\+\)\@<=[ :]\x\+$/
" An attribute, whose name nearly always has a dot.
syn match imareportAttr /^[!-~]*\.[!-~]* \x*$/
" Events: place, step, deed, and the outcome after ` = `. Replies: call, and words.
syn match imareportPlace /^\d\+ \%(\d\+\.\d\+\.\d\+ \)\=/ nextgroup=@imareportAfter
syn match imareportDeed /birth$/ contained
syn match imareportDeed /\%(count\|check\|take\) .\{-} = /he=e-3 contained nextgroup=@imareportAfter
syn match imareportDeed /\%(chunk\|finish\) .\{-} = /he=e-3 contained nextgroup=@imareportAfter
syn match imareportDeed /\%(read\|write\|trunc\) .\{-} = /he=e-3 contained nextgroup=@imareportAfter
syn match imareportDeed /set-\%(attr\|meta\) .\{-} = /he=e-3 contained nextgroup=@imareportAfter
syn match imareportDeed /close\%(-[a-z]\+\)\= .\{-} = /he=e-3 contained nextgroup=@imareportAfter
syn match imareportOk /\%(held\|quiet\|begun\|more\|last\|done\|\d\+\)$/ contained
syn match imareportOk /\%(labelled \)\=dropped$/ contained
syn match imareportOk /\%([a-z]\+ \d\+ \)\=\%(pass \)\=admitted\%( labelled\)\=$/ contained
syn match imareportOk /ok\%( \d\+ \@=\|$\)/ contained nextgroup=imareportRead
syn match imareportRead / \x\+$/ contained
syn match imareportBad /\%([a-z]\+ \d\+ \)\=deny \S\+ [a-z]\+\%( labelled\)\=$/ contained
syn match imareportBad /\%(notfound\|textbusy\|toobig\)$/ contained
syn match imareportBad /\%(evmname\|notadmin\|toolong\|invalid\|nodata\|status \S\+\)$/ contained
syn match imareportBad /\%(open-writers\|tomtou\) \d\+$/ contained
syn match imareportBad /E[A-Z0-9]\+\%( \S\+\)\=$/ contained
syn cluster imareportAfter contains=imareportDeed,imareportOk,imareportBad
" An entry of the list; a violation has a template digest of zeros.
syn match imareportEntry /^[ 0-9]\d \x\{40} ima\%(-ng\|-sig\)\= .*/
syn match imareportBad /^[ 0-9]\d 0\{40} ima\%(-ng\|-sig\)\= .*/
" The trail of `imakern audit`.
syn match imareportBlock /^trail \d\+$/
syn match imareportEntry /^\%(audit\|hash\) \d\+\.\d\+ \d\+\.\d\+\.\d\+ line \d\+ \S\+ \S\+$/
syn match imareportRule /^rule \d\+ [0-9.]\+ .*/ contains=imareportAdded,@imapolicyRule
syn match imareportAdded /^rule \d\+ [0-9.]\+ / contained

hi def link imareportHead PreProc
hi def link imareportBlock Type
hi def link imareportAdded Type
hi def link imareportEntry String
hi def link imareportAttr Identifier
hi def link imareportDigest Comment
hi def link imareportRead Comment
hi def link imareportPlace Number
hi def link imareportDeed Statement
hi def link imareportOk Constant
hi def link imareportBad WarningMsg

let b:current_syntax = 'imareport'
