" ti-lsp in Vim with ALE (https://github.com/dense-analysis/ale):
" copy this file to ~/.vim/plugin/ti-lsp.vim
autocmd BufRead,BufNewFile *.ti,*.terminfo,terminfo.src setfiletype terminfo
call ale#linter#Define('terminfo', {
\   'name': 'ti-lsp',
\   'lsp': 'stdio',
\   'executable': 'ti-lsp',
\   'command': '%e',
\   'project_root': {buffer -> expand('#' . buffer . ':p:h')},
\})
