-- Starlark in Neovim 0.7 or later, by starlark-lsp: `luafile` it from init.lua. It shows faults, and
-- colours and folds also where Neovim doesn't do so by itself (colours from 0.9 on).
local M = {command = {'starlark-lsp'}}

local names = {'BUCK', 'BUILD', 'BUILD.bazel', 'MODULE.bazel', 'WORKSPACE', 'WORKSPACE.bazel', '*.bzl', '*.star'}
local groups = {'Comment', 'Keyword', 'Identifier', 'Number', 'String', 'Operator'}
local namespace = vim.api.nvim_create_namespace('starlark-lsp')
local levels = {}

-- Colours the tokens, of which each has five numbers: lines and columns from the one before, length,
-- type, and 0.
local function paint(buffer, data)
  vim.api.nvim_buf_clear_namespace(buffer, namespace, 0, -1)
  local line, column = 0, 0
  for at = 1, #data, 5 do
    column = data[at] > 0 and data[at + 1] or column + data[at + 1]
    line = line + data[at]
    local text = vim.api.nvim_buf_get_lines(buffer, line, line + 1, false)[1] or ''
    local ok, first = pcall(vim.str_byteindex, text, column, true)
    local all, last = pcall(vim.str_byteindex, text, column + data[at + 2], true)
    if ok and all then
      vim.api.nvim_buf_add_highlight(buffer, namespace, groups[data[at + 3] + 1], line, first, last)
    end
  end
end

-- How many folds each line is in.
local function fold(buffer, ranges)
  local depth = {}
  for _, range in ipairs(ranges) do
    for line = range.startLine + 1, range.endLine + 1 do
      depth[line] = (depth[line] or 0) + 1
    end
  end
  levels[buffer] = depth
  for _, window in ipairs(vim.fn.win_findbuf(buffer)) do
    vim.api.nvim_win_set_option(window, 'foldexpr', 'v:lua.starlark_fold(v:lnum)')
    vim.api.nvim_win_set_option(window, 'foldmethod', 'expr')
  end
end

function _G.starlark_fold(line)
  return (levels[vim.api.nvim_get_current_buf()] or {})[line] or 0
end

-- Asks the server for what a buffer shows.
local function show(client, buffer)
  local params = {textDocument = {uri = vim.uri_from_bufnr(buffer)}}
  local function ask(method, take)
    client.request(method, params, function(_, result)
      if result and vim.api.nvim_buf_is_loaded(buffer) then
        take(buffer, result.data or result)
      end
    end, buffer)
  end
  if not vim.lsp.semantic_tokens then
    ask('textDocument/semanticTokens/full', paint)
  end
  ask('textDocument/foldingRange', fold)
end

-- Starts the server for a buffer, or gives it to the one that runs.
function M.start(buffer)
  M.client = M.client or vim.lsp.start_client({name = 'starlark', cmd = M.command})
  vim.lsp.buf_attach_client(buffer, M.client)
  local client = vim.lsp.get_client_by_id(M.client)
  vim.wait(5000, function() return client.initialized end, 10)
  show(client, buffer)
  vim.api.nvim_buf_attach(buffer, false, {
    on_lines = function()
      vim.schedule(function() show(client, buffer) end)
    end,
  })
end

vim.api.nvim_create_autocmd({'BufReadPost', 'BufNewFile'}, {
  pattern = names,
  callback = function(event) M.start(event.buf) end,
})

return M
