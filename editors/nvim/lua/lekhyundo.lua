-- The language server for Roto filters in Neovim, 0.7 and later. `vim.g.lekhyundo_lsp` names the program where it isn't on the PATH.
local M = {}

-- For each buffer the fold level of each line, with `>` where a fold begins.
local levels = {}

local function by_lines(folds)
  local level = {}
  for _, fold in ipairs(folds) do
    for line = fold.startLine + 1, fold.endLine + 1 do
      level[line] = (level[line] or 0) + 1
    end
  end
  local marked = {}
  for line, depth in pairs(level) do
    marked[line] = tostring(depth)
  end
  for _, fold in ipairs(folds) do
    local line = fold.startLine + 1
    marked[line] = '>' .. level[line]
  end
  return marked
end

-- What 'foldexpr' asks for a line.
function M.level(line)
  local known = levels[vim.api.nvim_get_current_buf()] or {}
  return known[line] or '0'
end

-- The windows of a buffer fold anew.
local function refold(buffer)
  for _, window in ipairs(vim.fn.win_findbuf(buffer)) do
    vim.api.nvim_win_call(window, function()
      vim.wo.foldmethod = 'expr'
      vim.wo.foldexpr = "v:lua.require'lekhyundo'.level(v:lnum)"
    end)
  end
end

-- Asks the server what can be folded in a buffer.
function M.fold(buffer)
  local params = { textDocument = { uri = vim.uri_from_bufnr(buffer) } }
  vim.lsp.buf_request(buffer, 'textDocument/foldingRange', params, function(fault, folds)
    if not fault and folds and vim.api.nvim_buf_is_loaded(buffer) then
      levels[buffer] = by_lines(folds)
      refold(buffer)
    end
  end)
end

-- How a class of the server's legend is shown, by its place there.
local shown = { 'Keyword', 'Identifier', 'Number', 'String', 'Operator', 'Comment' }
local colours = vim.api.nvim_create_namespace('lekhyundo')

local function paint(buffer, data)
  vim.api.nvim_buf_clear_namespace(buffer, colours, 0, -1)
  local line, from = 0, 0
  for i = 1, #data, 5 do
    line, from = line + data[i], data[i] == 0 and from + data[i + 1] or data[i + 1]
    vim.api.nvim_buf_add_highlight(buffer, colours, shown[data[i + 3] + 1], line, from, from + data[i + 2])
  end
end

-- Asks for colours where Neovim itself doesn't yet: 0.9 does. A file that is no ASCII, where its columns differ from the server's, has none.
function M.colour(buffer)
  local lines = table.concat(vim.api.nvim_buf_get_lines(buffer, 0, -1, true))
  if vim.lsp.semantic_tokens or lines:find('[\128-\255]') then
    return
  end
  local params = { textDocument = { uri = vim.uri_from_bufnr(buffer) } }
  local changed = vim.api.nvim_buf_get_changedtick(buffer)
  vim.lsp.buf_request(buffer, 'textDocument/semanticTokens/full', params, function(fault, tokens)
    local same = vim.api.nvim_buf_is_loaded(buffer) and vim.api.nvim_buf_get_changedtick(buffer) == changed
    if not fault and tokens and same then
      paint(buffer, tokens.data)
    end
  end)
end

local function refresh(buffer)
  M.fold(buffer)
  M.colour(buffer)
end

local function when(events, buffer, action)
  vim.api.nvim_create_autocmd(events, { buffer = buffer, callback = action })
end

-- What is asked again when a buffer changes, once the server knows it.
local function attached(_, buffer)
  vim.keymap.set('n', 'K', vim.lsp.buf.hover, { buffer = buffer })
  when({ 'TextChanged', 'InsertLeave' }, buffer, function()
    refresh(buffer)
  end)
  when('BufUnload', buffer, function()
    levels[buffer] = nil
  end)
  refresh(buffer)
end

-- The one client for all buffers, where Neovim doesn't look for one itself: 0.8 does.
local client

local function start(settings, buffer)
  if vim.lsp.start then
    return vim.lsp.start(settings, { bufnr = buffer })
  end
  if not client or not vim.lsp.get_client_by_id(client) then
    client = vim.lsp.start_client(settings)
  end
  return client and vim.lsp.buf_attach_client(buffer, client)
end

function M.attach(buffer)
  vim.bo[buffer].commentstring = '// %s'
  vim.opt_local.foldlevel = 99
  start({
    name = 'lekhyundo',
    cmd = { vim.g.lekhyundo_lsp or 'lekhyundo-lsp' },
    root_dir = vim.fn.getcwd(),
    on_attach = attached,
  }, buffer)
end

return M
