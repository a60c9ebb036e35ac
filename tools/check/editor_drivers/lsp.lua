-- Neovim drives `mos65 lsp`. Environment: PROGRAM, SOURCE (a copy of an example without a fault),
-- NAME (a name of it) and OTHER (the name that it gets), and RENAMES: a line for each other source, with
-- its path, a name of it, the name that it gets, and the program that serves it. Each line is
-- 'right: ..' or 'WRONG: ..'.
local function want(holds, words)
  io.write((holds and "right: " or "WRONG: ") .. words .. "\n")
end

local told = 0
local function wait(test, words)
  want(vim.wait(20000, test, 20), words)
end

vim.lsp.handlers["textDocument/publishDiagnostics"] = (function(old)
  return function(...)
    told = told + 1
    return old(...)
  end
end)(vim.lsp.handlers["textDocument/publishDiagnostics"])

local clients = {}
local function open(path, program)
  vim.cmd("edit " .. path)
  clients[program] = clients[program] or
    vim.lsp.start_client({ name = "mos65", cmd = { program, "lsp" }, root_dir = "/" })
  local client = clients[program]
  vim.lsp.buf_attach_client(0, client)
  wait(function() return vim.lsp.buf_get_clients(0)[client] ~= nil end,
    "a session for " .. vim.fn.fnamemodify(path, ":t"))
  return client
end

local client = open(os.getenv("SOURCE"), os.getenv("PROGRAM"))
local lines = vim.api.nvim_buf_get_lines(0, 0, -1, false)
local name, other = os.getenv("NAME"), os.getenv("OTHER")

-- The line that defines a name, and a line and a column at which it is used.
local function places_of(text)
  local defined, used, column
  for number, line in ipairs(vim.api.nvim_buf_get_lines(0, 0, -1, false)) do
    local code = line:gsub(";.*", "")
    if code:match("^%s*" .. text .. "%s*[:=]") then
      defined = number
    elseif not used and code:match("%f[%w_]" .. text .. "%f[^%w_]") then
      used, column = number, code:find("%f[%w_]" .. text .. "%f[^%w_]")
    end
  end
  return defined, used, column
end
local defined, used, column = places_of(name)

local function diagnostics()
  return #vim.diagnostic.get(0)
end
wait(function() return told > 0 and diagnostics() == 0 end, "no mark on an example")
vim.api.nvim_buf_set_lines(0, used - 1, used, false, { "        LDX #$100" })
wait(function() return diagnostics() > 0 end, "a mark comes with a fault")
local mark = vim.diagnostic.get(0)[1]
want(mark and mark.lnum == used - 1 and mark.code == "ByteRange", "it is on the line, a ByteRange")
vim.api.nvim_buf_set_lines(0, used - 1, used, false, { lines[used] })
wait(function() return diagnostics() == 0 end, "it goes when the line is mended")

local function ask(method, more)
  vim.api.nvim_win_set_cursor(0, { used, column - 1 })
  local params = vim.lsp.util.make_position_params()
  for key, value in pairs(more or {}) do params[key] = value end
  local got = vim.lsp.buf_request_sync(0, method, params, 20000)
  return got and got[client] and got[client].result
end
local meant = ask("textDocument/hover")
want(meant and ("\n" .. meant.contents.value):find("\n" .. name, 1, true), "hover on a name")
local places = ask("textDocument/definition")
want(places and #places == 1 and places[1].range.start.line == defined - 1, "its definition")
local function shown(method, more)
  local got = ask(method, more)
  return type(got) == "table" and #(got.data or got.signatures or got) or 0
end
local colours, hints = shown("textDocument/semanticTokens/full"), shown("textDocument/inlayHint", { range = {
  start = { line = 0, character = 0 }, ["end"] = { line = #lines, character = 0 } } })
want(colours > 0 and colours % 5 == 0, "colours")
want(shown("textDocument/foldingRange") > 0, "folds")
want(shown("textDocument/documentHighlight") > 1, "a name and its uses, marked")
want(hints > 0 and hints <= #lines, "what stands behind lines")
want(shown("textDocument/signatureHelp") > 0, "the forms of an operation")
local function rename(to)
  local changes = ask("textDocument/rename", { newName = to })
  if changes then vim.lsp.util.apply_workspace_edit(changes, "utf-16") end
  vim.cmd("silent write")
  return changes ~= nil
end
want(rename(other), "another name")
for path, from, to, program in os.getenv("RENAMES"):gmatch("(%S+) (%S+) (%S+) (%S+)") do
  client = open(path, program)
  defined, used, column = places_of(from)
  want(rename(to), "another name in " .. vim.fn.fnamemodify(path, ":t"))
end
for _, it in pairs(clients) do
  vim.lsp.stop_client(it)
  vim.wait(20000, function() return vim.lsp.get_client_by_id(it) == nil end, 20)
  want(vim.lsp.get_client_by_id(it) == nil, "an end")
end
vim.cmd("qa!")
