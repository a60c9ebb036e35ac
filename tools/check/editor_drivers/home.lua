-- Neovim, started on a source from a home that has the page's lines alone, tells what it has there. Each
-- line is 'right: ..' or 'WRONG: ..'. The source has one slip, a plain number, on line 4.
local function want(holds, words)
  io.write((holds and "right: " or "WRONG: ") .. words .. "\n")
end
local function wait(test, words)
  want(vim.wait(60000, test, 20), words)
end
local function clients(buffer)
  return vim.tbl_keys(vim.lsp.buf_get_clients(buffer))
end

local first = vim.api.nvim_get_current_buf()
want(vim.bo.filetype == "mos65", "the type of the file")
want(vim.bo.commentstring == "; %s", "comments")
vim.fn.search("LDX")
local colour = vim.fn.synIDattr(vim.fn.synID(vim.fn.line("."), vim.fn.col("."), 1), "name")
want(colour == "mos65Mnemonic", "the colour of LDX")
wait(function() return #clients(first) == 1 end, "a server without a line in init.lua")
wait(function() return #vim.diagnostic.get(first) == 1 end, "the slip is marked")
local mark = vim.diagnostic.get(first)[1]
want(mark and mark.lnum == 3 and mark.code == "PlainNumber", "where it is")
want(vim.fn.maparg("K", "n") ~= "", "K is mapped")
vim.cmd("silent make!")
local listed = vim.tbl_filter(function(it) return it.valid == 1 end, vim.fn.getqflist())
want(#listed == 1 and listed[1].lnum == 4 and listed[1].type:lower() == "w", ":make lists the slip as a warning")

vim.cmd("edit! " .. vim.fn.fnameescape(os.getenv("OTHER")))
wait(function() return #clients(0) == 1 end, "a second source has a server")
want(clients(0)[1] == clients(first)[1], "it is the same")

-- A stand-in for nvim-dap, which keeps what is registered, and for what Neovim 0.8 and later have.
local mos65 = require("mos65")
local dap = { adapters = {}, configurations = {} }
package.preload.dap = function() return dap end
want(mos65.register() and dap.configurations.mos65[1].program == "${file}", "nvim-dap is told of the debugger")
local adapter
dap.adapters.mos65(function(it) adapter = it end)
local said = ""
local command = vim.list_extend({ adapter.command }, adapter.args)
local job = vim.fn.jobstart(command, { on_stdout = function(_, data) said = said .. table.concat(data, "\n") end })
local body = '{"seq":1,"type":"request","command":"initialize"}'
vim.fn.chansend(job, "Content-Length: " .. #body .. "\r\n\r\n" .. body)
wait(function() return said:find("supportsStepBack", 1, true) ~= nil end, "the adapter answers, and can step back")
want(command[2]:find("mos65-dap.sh", 1, true) ~= nil, "by the script, so that a run can be paused")
vim.fn.jobstop(job)
local own = { type = "executable", command = "own" }
dap.adapters.mos65 = own
want(mos65.register() and dap.adapters.mos65 == own, "an adapter of the user stays")

local started
vim.lsp.start = function(config, options) started = { config, options } end
mos65.start(first)
want(started and started[1].name == "mos65" and started[1].cmd[2] == "lsp" and started[2].bufnr == first,
  "later versions start it themselves")

local told = {}
vim.notify = function(text) table.insert(told, text) end
vim.g.mos65_program = "/no such/mos65"
for _ = 1, 2 do mos65.start(first) end
wait(function() return #told > 0 end, "a program that is not there is told")
want(#told == 1 and told[1]:find("/no such/mos65", 1, true) and told[1]:find("vim.g.mos65_program", 1, true),
  "once, with the setting")
want(true, "an end")
vim.cmd("qa!")
