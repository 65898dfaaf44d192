" What Vim does. It writes what is wrong, or `ok`, into a file.
set nocompatible hidden
packadd ale
let g:ale_echo_cursor = 0
execute 'source' $SESSION_VIM
let g:starlark_command = [$SESSION_PYTHON, '-m', 'starlark_lexer.lsp']

function! Faults()
  return map(copy(ale#engine#GetLoclist(bufnr(''))), {_, it -> [it.lnum, it.col, it.code]})
endfunction

function! Want(faults, what)
  ALELint
  for _ in range(400)
    if Faults() == a:faults
      return
    endif
    sleep 50m
  endfor
  call writefile(['Vim: ' . a:what], $HOME . '/said')
  cquit
endfunction

edit $SESSION_FILE
set filetype=starlark
call Want([[5, 5, 'SL004']], 'the fault is not shown')
call setline(5, "y = 'a'")
call Want([], 'the fault stays')
call writefile(['ok'], $HOME . '/said')
qall!
