-- Files named *.roto are Roto filters, and each gets the language server.
local group = vim.api.nvim_create_augroup('lekhyundo', {})

vim.api.nvim_create_autocmd({ 'BufRead', 'BufNewFile' }, {
  group = group,
  pattern = '*.roto',
  callback = function()
    vim.bo.filetype = 'roto'
  end,
})

vim.api.nvim_create_autocmd('FileType', {
  group = group,
  pattern = 'roto',
  callback = function(event)
    require('lekhyundo').attach(event.buf or vim.api.nvim_get_current_buf())
  end,
})
