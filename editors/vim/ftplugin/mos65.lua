-- Neovim alone reads this: a source of mos65 has its language server and its debugger at once.
require("mos65").attach(vim.api.nvim_get_current_buf())
