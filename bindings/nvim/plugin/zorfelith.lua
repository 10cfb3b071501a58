-- Commands of zorfelith. With a ! :ZfFind matches letters in either case.
if vim.g.loaded_zorfelith then
  return
end
vim.g.loaded_zorfelith = true

vim.api.nvim_set_hl(0, "ZfMatch", { link = "Search", default = true })

local function command(name, act, options)
  vim.api.nvim_create_user_command(name, act, options)
end

command("ZfFind", function(called)
  require("zorfelith").find(called.args, { case_insensitive = called.bang and 1 or 0 })
end, { nargs = 1, bang = true, desc = "Highlight a pattern, and go to its next match" })
command("ZfNext", function()
  require("zorfelith").next()
end, { desc = "Go to the next match of :ZfFind" })
command("ZfPrevious", function()
  require("zorfelith").previous()
end, { desc = "Go to the match of :ZfFind before" })
command("ZfClear", function()
  require("zorfelith").clear()
end, { desc = "Highlight nothing of :ZfFind" })

vim.keymap.set("n", "<Plug>(ZfNext)", "<Cmd>ZfNext<CR>")
vim.keymap.set("n", "<Plug>(ZfPrevious)", "<Cmd>ZfPrevious<CR>")

vim.api.nvim_create_autocmd({ "BufUnload" }, {
  group = vim.api.nvim_create_augroup("zorfelith", {}),
  callback = function(event)
    if package.loaded.zorfelith then
      require("zorfelith").forget(event.buf)
    end
  end,
})
