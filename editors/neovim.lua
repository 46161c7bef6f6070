-- ti-lsp in Neovim 0.7 or later: copy this file to ~/.config/nvim/plugin/ti-lsp.lua

-- whether a file *.info is terminfo source: its first line but comments is a head line
local function is_entry(buffer)
  for _, line in ipairs(vim.api.nvim_buf_get_lines(buffer, 0, 200, false)) do
    if line:find('%S') and line:sub(1, 1) ~= '#' then
      return line:find('^[^%s,|#/]+,') ~= nil or line:find('^[^%s,|#/]+|[^,]*,') ~= nil
    end
  end
  return false
end

vim.api.nvim_create_autocmd({ 'BufRead', 'BufNewFile' }, {
  pattern = { '*.ti', '*.terminfo', 'terminfo.src', '*.info' },
  callback = function(event)
    local is_new = vim.bo[event.buf].filetype ~= 'terminfo'
    if is_new and (not event.match:find('%.info$') or is_entry(event.buf)) then
      vim.bo[event.buf].filetype = 'terminfo'
    end
  end,
})

if vim.fn.executable('ti-lsp') == 0 then
  vim.api.nvim_create_autocmd('FileType', {
    pattern = 'terminfo',
    once = true,
    callback = function()
      vim.notify('ti-lsp is not found on the PATH, so terminfo source is not checked', vim.log.levels.WARN)
    end,
  })
elseif vim.lsp.config and vim.lsp.enable then
  -- 0.11 or later
  vim.lsp.config('ti-lsp', {
    cmd = { 'ti-lsp' },
    filetypes = { 'terminfo' },
    root_markers = { '.git' },
  })
  vim.lsp.enable('ti-lsp')
else
  local client
  vim.api.nvim_create_autocmd('FileType', {
    pattern = 'terminfo',
    callback = function(event)
      client = client or vim.lsp.start_client({
        name = 'ti-lsp',
        cmd = { 'ti-lsp' },
        root_dir = vim.fn.getcwd(),
        on_exit = function()
          client = nil
        end,
      })
      vim.lsp.buf_attach_client(event.buf, client)
    end,
  })
end
