" File types of imakern's texts, by their first line that is neither empty nor a comment. To use
" them: set runtimepath+=PATH/fittings/vim in .vimrc, before `filetype on`.

function! s:Detect() abort
  for line in getline(1, 200)
    if line =~# '^\s*\%(#.*\)\=$'
      continue
    endif
    if line =~# '^\%(imakern\|imalist\|imabuffers\|imacarry\) 1$'
      set filetype=imascript
    elseif line ==# 'imakern report 1'
      set filetype=imareport
    elseif line =~# '^\s*\%(dont_\)\=\%(measure\|appraise\|audit\|hash\)\%(\s\|$\)'
      set filetype=imapolicy
    endif
    return
  endfor
endfunction

autocmd BufRead *.script,*.list,*.buffers,*.carry,*.report,*.policy,ima-policy call s:Detect()
