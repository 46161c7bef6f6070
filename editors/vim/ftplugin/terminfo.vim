" How terminfo source is written: comments in the first column, items after a tab.
if exists('b:did_ftplugin')
  finish
endif
let b:did_ftplugin = 1
setlocal comments=:# commentstring=#\ %s
setlocal noexpandtab tabstop=8 shiftwidth=8 softtabstop=0
setlocal formatoptions-=t
let b:undo_ftplugin = 'setlocal comments< commentstring< expandtab< tabstop< shiftwidth< softtabstop< formatoptions<'
