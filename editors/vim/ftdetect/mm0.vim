" Metamath Zero: specifications, the proof texts of mz, and the sources of scripts/make-developments.
autocmd BufNewFile,BufRead *.mm0 setfiletype mm0
autocmd BufNewFile,BufRead *.mmu setfiletype mmu
autocmd BufNewFile,BufRead *.proofs setfiletype mm0
