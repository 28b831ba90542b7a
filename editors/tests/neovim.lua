-- Neovim opens tests/broken.roto with the server, and what it then has of it is compared. Run by editors/test.
local failed = 0

local function is(what, got, wanted)
  if not vim.deep_equal(got, wanted) then
    failed = failed + 1
    print(('%s: got %s, wanted %s\n'):format(what, vim.inspect(got), vim.inspect(wanted)))
  end
end

-- Waits up to ten seconds.
local function until_true(what, test)
  is(what, vim.wait(10000, test, 20), true)
end

local function diagnostics()
  local all = {}
  for _, one in ipairs(vim.diagnostic.get(0)) do
    table.insert(all, { one.lnum, one.col, one.end_col, one.code, one.message })
  end
  table.sort(all, function(a, b)
    return a[1] < b[1]
  end)
  return all
end

local function ask(method, position)
  local params = { textDocument = vim.lsp.util.make_text_document_params(), position = position }
  local answers = vim.lsp.buf_request_sync(0, 'textDocument/' .. method, params, 10000) or {}
  local _, answer = next(answers)
  return answer and answer.result
end

local function symbols()
  local all = {}
  for _, symbol in ipairs(ask('documentSymbol') or {}) do
    table.insert(all, symbol.detail .. ' ' .. symbol.name)
  end
  return all
end

local function fold_levels()
  local all = {}
  for line = 1, vim.fn.line('$') do
    table.insert(all, vim.fn.foldlevel(line))
  end
  return table.concat(all)
end

until_true('diagnostics come', function()
  return #vim.diagnostic.get(0) == 2
end)
local first, second = diagnostics()[1], diagnostics()[2]
is('first refusal', { first[1], first[2], first[3], first[4] }, { 14, 8, 12, 6 })
is('its message', first[5]:match('^[^\n]*'), "'None' can't stand here")
is('what was expected', first[5]:find("\nexpected .*','") ~= nil, true)
local address = '10.0.0.256 is no IPv4 address: four numbers up to 255, none with a zero before it'
is('second refusal', second, { 19, 24, 34, 7, address })
is('symbols', symbols(), { 'import std.net', 'import std.log', 'const LIMIT', 'fn preferred' })
until_true('folds come', function()
  return vim.fn.foldlevel(1) == 1
end)
is('folds', fold_levels(), '1111' .. ('0'):rep(18) .. '12211' .. '0')
is('value', ask('hover', { line = 5, character = 6 }).contents.value, 'constant 24')

-- The highlight group at a place that was painted by what the server says; a newer Neovim paints by itself.
local function painted(line, column)
  local space = vim.api.nvim_get_namespaces().lekhyundo
  for _, mark in ipairs(vim.api.nvim_buf_get_extmarks(0, space, { line, column }, { line, column }, { details = true })) do
    return mark[4].hl_group
  end
end
if not vim.lsp.semantic_tokens then
  until_true('colours come', function()
    return painted(5, 0) == 'Keyword'
  end)
  is('colour of a number', painted(5, 18), 'Number')
  is('colour of a text', painted(9, 15), 'String')
  is('colour of a comment', painted(1, 0), 'Comment')
end

-- The match is mended, then the address: what the server says follows.
vim.api.nvim_buf_set_lines(0, 13, 14, true, { '        _ => log(f"peer {peer.asn}"),' })
until_true('one refusal is left', function()
  return #vim.diagnostic.get(0) == 1
end)
vim.api.nvim_buf_set_text(0, 19, 31, 19, 34, { '25' })
until_true('none is left', function()
  return #vim.diagnostic.get(0) == 0
end)
is('all symbols', #symbols(), 6)
vim.cmd('doautocmd TextChanged')
until_true('folds of all', function()
  return vim.fn.foldlevel(12) == 2
end)

-- The whole file is written in its one way, and then nothing changes any more.
local function print_of()
  local format = vim.lsp.buf.format or vim.lsp.buf.formatting_sync
  format()
  return vim.api.nvim_buf_get_lines(0, 0, -1, true)
end
local print_once = print_of()
is('first line of the print', print_once[1], 'import std . net ;')
is('the print of the print', print_of(), print_once)

-- A file that is no ASCII is refused where it isn't.
vim.api.nvim_buf_set_lines(0, 0, 1, true, { '// Routen für Kunden' })
until_true('a byte that is no ASCII', function()
  return #vim.diagnostic.get(0) == 1
end)
is('its place in bytes', diagnostics()[1] and { diagnostics()[1][1], diagnostics()[1][2], diagnostics()[1][3] }, { 0, 11, 13 })

-- Another file is the same server's.
vim.cmd('edit! tests/other.roto')
vim.api.nvim_buf_set_lines(0, 0, -1, true, { 'fn' })
until_true('a refusal of another file', function()
  return #vim.diagnostic.get(0) == 1
end)
is('servers', #vim.lsp.get_active_clients(), 1)

print(failed == 0 and 'neovim: ok\n' or ('neovim: %d failed\n'):format(failed))
vim.cmd(failed == 0 and 'qall!' or 'cquit!')
