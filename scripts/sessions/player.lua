-- Plays a session in Neovim: types what the author types, waits until editor and server are done with it, and notes what is seen.
-- The environment names the files: MZ_INPUTS has a line of keys for each input, MZ_SEEN is written.
local WAIT, PATIENCE = 10, 60000 -- milliseconds: between two looks, and until it is given up
local LOOKS = 3 -- so often all has to be quiet, one look after another
local MOST_ITEMS = 6
local seen, running = {}, nil
local judged, told, choice = {}, {}, nil
local edited = vim.api.nvim_get_current_buf() -- the buffer of the file that the author is at
local shown = { lines = {}, errors = {}, windows = {} }

local function note(text)
  for _, line in ipairs(vim.split(text, "\n")) do
    table.insert(seen, line)
  end
end

local function pause()
  vim.defer_fn(function()
    local fine, why = coroutine.resume(running)
    if not fine then
      note("! " .. tostring(why))
      vim.fn.writefile(seen, vim.env.MZ_SEEN)
      vim.cmd("cquit")
    end
  end, WAIT)
  coroutine.yield()
end

-- Waits until something is so.
local function await(is_so, what)
  for _ = 1, PATIENCE / WAIT do
    if is_so() then
      return
    end
    pause()
  end
  error("waited in vain: " .. what)
end

-- What the server says of a version is remembered, and its messages are what is told.
local publish = vim.lsp.handlers["textDocument/publishDiagnostics"]
vim.lsp.handlers["textDocument/publishDiagnostics"] = function(fault, result, context, config)
  judged[vim.uri_to_bufnr(result.uri)] = result.version
  publish(fault, result, context, config)
end
vim.lsp.handlers["window/showMessage"] = function(_, result)
  table.insert(told, result.message)
end
vim.notify = function(text)
  table.insert(told, text)
end
vim.ui.select = function(items, options, chosen)
  choice = function(number)
    choice = nil
    chosen(items[number], number)
  end
  for i, it in ipairs(items) do
    table.insert(told, i .. ": " .. options.format_item(it))
  end
end

local function is_ours(buffer)
  return vim.tbl_contains({ "mm0", "mmu" }, vim.bo[buffer].filetype) and not vim.g.mz_no_server
end

-- The texts behind the lines of a buffer: the lenses.
local function lenses(buffer)
  local made = {}
  for name, space in pairs(vim.api.nvim_get_namespaces()) do
    if name:find("codelens") then
      for _, mark in ipairs(vim.api.nvim_buf_get_extmarks(buffer, space, 0, -1, { details = true })) do
        local text = ""
        for _, chunk in ipairs(mark[4].virt_text or {}) do
          text = text .. chunk[1]
        end
        made[mark[2] + 1] = text
      end
    end
  end
  return made
end

-- Whether the server has answered all, and what it has said of the lenses is seen.
local function is_quiet()
  for _, it in pairs(vim.lsp.get_active_clients()) do
    for _, request in pairs(it.requests) do
      if request.type == "pending" then
        return false
      end
    end
  end
  return not vim.tbl_contains(vim.tbl_map(function(text)
    return text:find("Unresolved lens") ~= nil
  end, lenses(edited)), true)
end

-- Waits until the server has judged each buffer as it stands, and all is quiet.
local function settle()
  pause()
  for _, buffer in ipairs(vim.tbl_filter(is_ours, vim.api.nvim_list_bufs())) do
    await(function()
      return not vim.tbl_isempty(vim.lsp.buf_get_clients(buffer))
    end, "the server")
    vim.lsp.buf_request(buffer, "textDocument/codeLens", { textDocument = vim.lsp.util.make_text_document_params(buffer) }, function() end)
    await(function()
      return judged[buffer] == vim.lsp.util.buf_versions[buffer]
    end, "the judgement of " .. vim.api.nvim_buf_get_name(buffer))
  end
  local looks = 0
  await(function()
    looks = is_quiet() and looks + 1 or 0
    return looks >= LOOKS
  end, "the answers")
end

-- Notes the lines that are new, with the lenses behind them; those that were typed have nothing else to say.
local function note_lines(buffer, typed)
  local before, now, behind = shown.lines, {}, lenses(buffer)
  for number, line in ipairs(vim.api.nvim_buf_get_lines(buffer, 0, -1, false)) do
    local lens = behind[number] or ""
    local text = lens == "" and line or line .. "    « " .. lens .. " »"
    if line ~= "" and not before[text] and (lens ~= "" or not typed:find(line, 1, true)) then
      note(string.format("%4d %s", number, text))
    end
    now[text] = true
  end
  shown.lines = now
end

-- Notes the errors that are new.
local function note_errors(buffer)
  local now = {}
  for _, it in ipairs(vim.diagnostic.get(buffer, { severity = vim.diagnostic.severity.ERROR })) do
    now[it.message] = true
    if not shown.errors[it.message] then
      note(string.format("%4d error at column %d: %s", it.lnum + 1, it.col + 1, it.message:gsub("\n", "\n       ")))
    end
  end
  shown.errors = now
end

-- Notes what stands in windows that show no file: the goal, what floats, what `:make` has said. Lines that are drawn are left out.
local function note_windows()
  local now = {}
  for _, window in ipairs(vim.api.nvim_list_wins()) do
    local buffer = vim.api.nvim_win_get_buf(window)
    if vim.bo[buffer].buftype ~= "" then
      local lines = vim.tbl_filter(function(line)
        return line:find("%w") ~= nil
      end, vim.api.nvim_buf_get_lines(buffer, 0, -1, false))
      now[window] = table.concat(lines, "\n")
      if shown.windows[window] ~= now[window] then
        note("     | " .. now[window]:gsub("\n", "\n     | "))
      end
    end
  end
  shown.windows = now
end

local function note_menu()
  local items = vim.fn.complete_info({ "items" }).items or {}
  for i = 1, math.min(#items, MOST_ITEMS) do
    note("     + " .. items[i].word .. (items[i].menu ~= "" and "  " .. items[i].menu or ""))
  end
  if #items > MOST_ITEMS then
    note("     + and " .. #items - MOST_ITEMS .. " more")
  end
end

local function note_told()
  for _, text in ipairs(told) do
    note("     : " .. text:gsub("\n", "\n     : "))
  end
  told = {}
  local messages = vim.api.nvim_exec("messages", true)
  if messages:find("%S") then
    note("     : " .. messages:gsub("\n", "\n     : "))
  end
  vim.cmd("messages clear")
end

local function play(input)
  note("> " .. input)
  if choice and input:match("^%d+$") then
    choice(tonumber(input))
  else
    vim.api.nvim_input(input)
  end
  settle()
  local buffer = vim.api.nvim_get_current_buf()
  edited = vim.bo[buffer].buftype == "" and buffer or edited
  note_told()
  note_menu()
  note_lines(edited, input)
  note_errors(edited)
  note_windows()
end

running = coroutine.create(function()
  for _, input in ipairs(vim.fn.readfile(vim.env.MZ_INPUTS)) do
    play(input)
  end
  vim.fn.writefile(seen, vim.env.MZ_SEEN)
  vim.cmd("qall!")
end)
vim.defer_fn(function()
  coroutine.resume(running)
end, WAIT)
