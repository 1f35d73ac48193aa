-- The language server in Neovim: what is open behind the lines, what stands at the cursor (K), where it is declared (CTRL-]),
-- completion (CTRL-X CTRL-O), the goal in a window of its own (:MzGoal), proofs that are looked for and written (:MzFill).
local mz = { clients = {} }

-- The text of what is to be proved at the cursor goes to `show`.
function mz.goal(show)
  local place = vim.lsp.util.make_position_params(0, "utf-16")
  vim.lsp.buf_request(0, "mz/goal", place, function(_, found)
    show(found and found.text or "There is no proof here.")
  end)
end

-- Opens the window, which follows the cursor while it is open.
function mz.goals()
  local source, buffer = vim.api.nvim_get_current_buf(), vim.api.nvim_create_buf(false, true)
  vim.cmd("botright 12split")
  vim.api.nvim_win_set_buf(0, buffer)
  vim.bo[buffer].bufhidden = "wipe"
  vim.cmd("wincmd p")
  local function follow()
    if not vim.api.nvim_buf_is_valid(buffer) then
      return true -- the window is closed: no more is followed
    end
    mz.goal(function(text)
      if vim.api.nvim_buf_is_valid(buffer) then
        vim.api.nvim_buf_set_lines(buffer, 0, -1, false, vim.split(text, "\n"))
      end
    end)
  end
  vim.api.nvim_create_autocmd({ "CursorMoved", "CursorMovedI", "TextChanged" }, { buffer = source, callback = follow })
  follow()
end

-- What a buffer has when the server knows it.
local function attached(_, buffer)
  vim.bo[buffer].omnifunc, vim.bo[buffer].tagfunc = "v:lua.vim.lsp.omnifunc", "v:lua.vim.lsp.tagfunc"
  if vim.fn.maparg("K", "n") == "" then
    vim.keymap.set("n", "K", vim.lsp.buf.hover, { buffer = buffer })
  end
  local function show()
    vim.lsp.codelens.refresh()
  end
  vim.api.nvim_create_autocmd({ "BufEnter", "InsertLeave", "TextChanged" }, { buffer = buffer, callback = show })
  show()
end

-- Starts the server for the present buffer; buffers of one folder share one.
function mz.start()
  local folder = vim.fn.expand("<afile>:p:h")
  local config = { name = "mz", cmd = { vim.g.mz or "mz", "serve" }, root_dir = folder, on_attach = attached }
  if vim.lsp.start then
    vim.lsp.start(config)
  else -- before 0.8
    mz.clients[folder] = mz.clients[folder] or vim.lsp.start_client(config)
    vim.lsp.buf_attach_client(0, mz.clients[folder])
  end
end

return mz
