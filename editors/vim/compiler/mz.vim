" :compiler mz, then :make, and :copen shows what is said: of a proof source `mz prove` makes text and binary, other files are
" judged by `mz serve --check`. g:mz is the program: a path to the script ./mz, if it isn't in $PATH.
if exists("current_compiler")
  finish
endif
let current_compiler = "mz"

let s:mz = get(g:, "mz", "mz") . (expand("%:e") ==# "proofs" ? " prove %" : " serve --check %")
execute "CompilerSet makeprg=" . escape(s:mz, ' \|"')
CompilerSet errorformat=%E%f:%l:%c:\ error:\ %m,%W%f:%l:%c:\ warning:\ %m,%E%f:%l:%c:\ %m,%+Gaccepted:%.%#,%+C\ \ %m,%-G%.%#
