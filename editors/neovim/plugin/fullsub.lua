-- Starts the server for fullsub files. `vim.g.fullsub_command`, set in the init file, takes the place of the command below.

-- Of several copies the first alone counts, so one's own goes before one that a package installed.
if vim.g.loaded_fullsub or vim.fn.has("nvim-0.7") == 0 then
  return
end
vim.g.loaded_fullsub = true

local config = {
  name = "lam_server",
  cmd = vim.g.fullsub_command or { "lam_server" },
  filetypes = { "fullsub" },
  on_attach = function(client)
    -- Faults are shown while a line is typed: the server keeps up with every key.
    local options = { update_in_insert = true }
    local shown = vim.diagnostic.config()
    -- Neovim 0.11 and later show no messages behind the lines unless they are asked to.
    if vim.lsp.config and not shown.virtual_text and not shown.virtual_lines then
      options.virtual_text = vim.g.fullsub_virtual_text ~= false
    end
    vim.diagnostic.config(options, vim.lsp.diagnostic.get_namespace(client.id))
  end,
}

-- The number of the one client, kept here since Neovim before 0.8 has no vim.lsp.start.
local number

local function start(event)
  local program = config.cmd[1]
  if vim.fn.executable(program) == 0 then
    -- Some versions say nothing, and others more than this.
    return vim.notify(program .. " is not on the PATH of Neovim, so there are only colours, indenting and comments", vim.log.levels.WARN)
  end
  if vim.lsp.config then
    -- Neovim 0.11 and later start it by themselves.
    return
  end
  config.root_dir = vim.fn.fnamemodify(vim.api.nvim_buf_get_name(event.buf), ":p:h")
  if vim.lsp.start then
    vim.lsp.start(config, { bufnr = event.buf })
  else
    number = number and vim.lsp.get_client_by_id(number) and number or vim.lsp.start_client(config)
    if number then
      vim.lsp.buf_attach_client(event.buf, number)
    end
  end
end

if vim.lsp.config then
  vim.lsp.config("lam_server", config)
  vim.lsp.enable("lam_server")
end
local group = vim.api.nvim_create_augroup("fullsub", {})
vim.api.nvim_create_autocmd("FileType", { group = group, pattern = "fullsub", callback = start })
