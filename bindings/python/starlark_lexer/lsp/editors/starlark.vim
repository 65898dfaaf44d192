" Starlark in Vim by starlark-lsp and ALE (Debian's vim-ale): source it from vimrc. It shows faults.
let g:starlark_command = ['starlark-lsp']

autocmd BufNewFile,BufRead BUCK,BUILD,BUILD.bazel,MODULE.bazel,WORKSPACE,WORKSPACE.bazel,*.bzl,*.star
      \ setfiletype starlark

call ale#linter#Define('starlark', {
      \ 'name': 'starlark-lsp',
      \ 'lsp': 'stdio',
      \ 'executable': {_ -> g:starlark_command[0]},
      \ 'command': {_ -> join(map(copy(g:starlark_command), {_, word -> ale#Escape(word)}))},
      \ 'project_root': {buffer -> expand('#' . buffer . ':p:h')},
      \ })
