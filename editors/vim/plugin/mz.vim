" The language server `mz serve`, in Neovim by itself, in Vim where the plugin vim-lsp is there.
" g:mz is the program, as for :compiler mz; g:mz_no_server = 1 turns this off.
if exists("g:loaded_mz") || get(g:, "mz_no_server", 0)
  finish
endif
let g:loaded_mz = 1

augroup mz
  autocmd!
  if has("nvim")
    autocmd FileType mm0,mmu lua require("mz").start()
    command! MzGoal lua require("mz").goals()
    command! MzFill lua vim.lsp.buf.code_action()
  else
    autocmd User lsp_setup call lsp#register_server({"name": "mz", "cmd": {_ -> [get(g:, "mz", "mz"), "serve"]},
          \ "allowlist": ["mm0", "mmu"]})
  endif
augroup END
