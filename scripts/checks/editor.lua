-- What Neovim does for scripts/hold-editor: `nvim --clean --headless -c 'luafile editor.lua'`. The variables SERVER, PROGRAM, WORKSPACE,
-- FILE, LINE, COL, NEW and REFUSED say what; the folder that it runs in has the program. It writes what it saw, as JSON, to REPORT, and
-- copies the folder to RENAMED and UNDONE.
local asked = vim.env
local report = { said = {} }
local patience = 300000

vim.o.hidden = true
vim.o.fixendofline = false
vim.o.swapfile = false

local function ended(status)
  local file = io.open(asked.REPORT, 'w')
  file:write(vim.fn.json_encode(report))
  file:close()
  vim.cmd(status == 0 and 'qall!' or 'cquit!')
end

vim.notify = function(text)
  table.insert(report.said, text)
end

local function buffers_changed()
  local found = {}
  for _, buffer in ipairs(vim.api.nvim_list_bufs()) do
    if vim.api.nvim_buf_get_option(buffer, 'modified') then
      table.insert(found, buffer)
    end
  end
  return found
end

-- waits until something holds, and says what did not come
local function wait(what, holds)
  if not vim.wait(patience, holds, 20) then
    report.missing = what
    ended(1)
    return false
  end
  return true
end

local function at_place()
  vim.api.nvim_win_set_cursor(0, { tonumber(asked.LINE), tonumber(asked.COL) - 1 })
end

-- a rename that is to be refused: what the editor says then
local function refused(name)
  local before = #report.said
  at_place()
  vim.lsp.buf.rename(name)
  return wait('a refusal of ' .. name, function() return #report.said > before end) and report.said[#report.said]
end

local function run()
  vim.cmd('edit ' .. vim.fn.fnameescape(asked.FILE))
  local client = vim.lsp.start_client({
    name = 'cscout',
    cmd = { asked.SERVER, asked.PROGRAM, asked.WORKSPACE },
    root_dir = vim.fn.getcwd(),
  })
  vim.lsp.buf_attach_client(0, client)
  if not wait('the server', function() return vim.lsp.buf_get_clients(0)[client] ~= nil end) then return end

  at_place()
  local words = vim.lsp.util.make_position_params()
  words.context = { includeDeclaration = true }
  local answers = vim.lsp.buf_request_sync(0, 'textDocument/references', words, patience) or {}
  report.references = {}
  for _, it in ipairs((answers[client] or {}).result or {}) do
    local path = vim.uri_to_fname(it.uri)
    table.insert(report.references, { path, it.range.start.line + 1, it.range.start.character + 1 })
  end

  report.refused = refused(asked.REFUSED)
  report.changed_by_refusal = #buffers_changed()

  at_place()
  vim.lsp.buf.rename(asked.NEW)
  if not wait('the rename', function() return #buffers_changed() > 0 end) then return end
  local changed = buffers_changed()
  report.buffers = #changed
  report.unsaved = refused(asked.NEW .. '2')
  vim.cmd('silent wall')
  vim.fn.system({ 'cp', '-a', '.', asked.RENAMED })

  -- one undo in each buffer
  for _, buffer in ipairs(changed) do
    vim.api.nvim_buf_call(buffer, function() vim.cmd('silent undo') end)
  end
  vim.cmd('silent wall')
  vim.fn.system({ 'cp', '-a', '.', asked.UNDONE })
  ended(0)
end

local fine, fault = xpcall(run, debug.traceback)
if not fine then
  report.fault = fault
  ended(1)
end
