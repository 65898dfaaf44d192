-- What Neovim does. It prints `ok` at the end.
local function want(is_right, what)
  if not is_right then
    print('Neovim: ' .. what)
    vim.cmd('cquit 1')
  end
end

local function shown(is_right, what)
  want(vim.wait(20000, is_right, 20), what)
end

local starlark = dofile(vim.env.SESSION_LUA)
starlark.command = {vim.env.SESSION_PYTHON, '-m', 'starlark_lexer.lsp'}
vim.cmd('edit ' .. vim.env.SESSION_FILE)

-- The group that colours a place.
local function group_at(line, column)
  local space = vim.api.nvim_get_namespaces()['starlark-lsp']
  for _, mark in ipairs(vim.api.nvim_buf_get_extmarks(0, space, {line, 0}, {line, -1}, {details = true})) do
    if mark[3] <= column and column < mark[4].end_col then
      return mark[4].hl_group
    end
  end
end

local function faults()
  return vim.diagnostic.get(0)
end

shown(function() return #faults() == 1 end, 'no fault is shown')
local fault = faults()[1]
want(fault.lnum == 4 and fault.col == 4 and fault.code == 'SL004', 'another fault is shown')
if not vim.lsp.semantic_tokens then
  shown(function() return group_at(0, 0) == 'Keyword' end, 'no colours are shown')
  want(group_at(4, 4) == nil, 'a fault has the colour of a token')
end
shown(function() return vim.fn.foldlevel(2) == 1 end, 'there are no folds')
want(vim.fn.foldlevel(5) == 0, 'there are other folds')
vim.cmd('2foldclose')
want(vim.fn.foldclosed(3) == 1, 'the fold stays open')

vim.api.nvim_buf_set_text(0, 4, 6, 4, 6, {"'"})
shown(function() return #faults() == 0 end, 'the fault stays')
if not vim.lsp.semantic_tokens then
  shown(function() return group_at(4, 5) == 'String' end, 'the colours stay')
end
vim.api.nvim_buf_set_lines(0, -1, -1, false, {'if y:', '    pass', ''})
shown(function() return vim.fn.foldlevel(7) == 1 end, 'the folds stay')
print('ok')
vim.cmd('qall!')
