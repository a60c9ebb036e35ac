-- Neovim's client for `mos65 lsp`, and nvim-dap's for `mos65 dap`. Settings, before a source is opened:
-- vim.g.mos65_program      the program, mos65 on the path where nothing is set
-- vim.g.mos65_arguments    words for the server, as {"--profile", "C"}
-- vim.g.mos65_settings     its settings, as {port = "0200", profile = "C"}
-- vim.g.mos65_server       false: no server
local M = {}
local told = {}

-- The name of the program, and its path, or nil where it is not found.
local function program()
  local name = vim.fn.expand(vim.g.mos65_program or "mos65")
  local path = vim.fn.exepath(name)
  return name, path ~= "" and path or nil
end

local function say_not_found(name)
  local text = "mos65: the program '" .. name .. "' is not found. Install it, and give its whole path: "
    .. "vim.g.mos65_program = '/path/to/mos65' in init.lua"
  vim.notify(text, vim.log.levels.ERROR)
end

-- Says once for each name that there is no such program.
local function tell(name)
  if told[name] then return end
  told[name] = true
  vim.schedule(function() say_not_found(name) end)
end

-- Neovim before 0.8 has no vim.lsp.start, which gives all sources one server.
local shared
local function start_shared(config, options)
  local client = shared and vim.lsp.get_client_by_id(shared)
  if not client or client.is_stopped() then shared = vim.lsp.start_client(config) end
  if shared then vim.lsp.buf_attach_client(options.bufnr, shared) end
  return shared
end

-- What Neovim sets by itself from 0.8 and 0.10 on.
local function set_keys(buffer)
  if vim.fn.has("nvim-0.8") == 0 then
    vim.bo[buffer].omnifunc = "v:lua.vim.lsp.omnifunc"
    vim.bo[buffer].tagfunc = "v:lua.vim.lsp.tagfunc"
  end
  if vim.fn.has("nvim-0.10") == 0 then
    vim.keymap.set("n", "K", vim.lsp.buf.hover, { buffer = buffer, desc = "what stands here" })
  end
end

-- Starts the server for a buffer, or attaches it to the one that runs. Returns the client's number.
function M.start(buffer)
  local name, path = program()
  if not path then return tell(name) end
  local command = { path, "lsp" }
  vim.list_extend(command, vim.g.mos65_arguments or {})
  local start = vim.lsp.start or start_shared
  local client = start({
    name = "mos65",
    cmd = command,
    root_dir = vim.fn.getcwd(),
    init_options = vim.g.mos65_settings,
  }, { bufnr = buffer })
  if client then set_keys(buffer) end
  return client
end

-- Gives the server that runs other settings: the marks of all buffers come again.
function M.set(settings)
  vim.g.mos65_settings = settings
  for _, client in pairs((vim.lsp.get_clients or vim.lsp.get_active_clients)()) do
    if client.name == "mos65" then
      client.notify("workspace/didChangeConfiguration", { settings = { mos65 = settings } })
    end
  end
end

-- The script beside this file, with which a run can be paused; nil where there is no shell for it.
local function script()
  local here = vim.fn.fnamemodify(debug.getinfo(1, "S").source:sub(2), ":p:h:h")
  local path = here .. "/adapter/mos65-dap.sh"
  if vim.fn.has("win32") == 0 and vim.fn.filereadable(path) == 1 then return path end
end

-- The adapter, as nvim-dap asks for it when a session begins.
local function adapter(done)
  local name, path = program()
  if not path then return say_not_found(name) end
  local through = script()
  done({
    type = "executable",
    command = through and "sh" or path,
    args = through and { through, path } or { "dap" },
  })
end

-- Makes the debugger known to nvim-dap, where that is installed. What a user has set stays.
function M.register()
  local is_there, dap = pcall(require, "dap")
  if not is_there then return false end
  dap.adapters.mos65 = dap.adapters.mos65 or adapter
  dap.configurations.mos65 = dap.configurations.mos65 or {
    { type = "mos65", request = "launch", name = "Debug this source", program = "${file}", stopOnEntry = true },
  }
  return true
end

function M.attach(buffer)
  M.register()
  if vim.g.mos65_server ~= false then M.start(buffer) end
end

return M
