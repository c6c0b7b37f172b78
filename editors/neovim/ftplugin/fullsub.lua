-- Keys of fullsub files in Neovim; comments, words and indenting are those of ../../vim.

local function map(key, action)
  -- Some of these functions take arguments, and a mapping has none. Newer Neovims have longer keys that begin with gr.
  vim.keymap.set("n", key, function() action() end, { buffer = true, nowait = true })
end

local function why()
  require("fullsub.why").show()
end

map("K", vim.lsp.buf.hover)
map("gd", vim.lsp.buf.definition)
map("gr", vim.lsp.buf.references)
map("<F2>", vim.lsp.buf.rename)
map("gl", vim.diagnostic.open_float)
map("gy", why)
-- Neovim 0.10 and later have these two themselves.
if vim.fn.maparg("]d", "n") == "" then
  map("]d", vim.diagnostic.goto_next)
  map("[d", vim.diagnostic.goto_prev)
end

vim.bo.omnifunc = "v:lua.vim.lsp.omnifunc"
-- Completion opens a preview window, in which there is nothing: close it after the choice.
vim.api.nvim_create_autocmd("CompleteDone", {
  group = vim.api.nvim_create_augroup("fullsub_preview", { clear = false }),
  buffer = 0,
  command = "silent! pclose",
})
vim.api.nvim_buf_create_user_command(0, "FullsubWhy", why, { desc = "Draw why the term under the cursor has its type" })
