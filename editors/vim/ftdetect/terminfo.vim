" Files of terminfo source. A file *.info is one if its first line but comments is a head line.
function! s:IsEntry() abort
  for line in getline(1, 200)
    if line !~# '^\s*$\|^#'
      return line =~# '^[^[:space:],|#/]\+\%(|[^,]*\)\?,'
    endif
  endfor
  return 0
endfunction

autocmd BufRead,BufNewFile *.ti,*.terminfo,terminfo.src set filetype=terminfo
autocmd BufRead,BufNewFile *.info if s:IsEntry() | set filetype=terminfo | endif
