" Specifications of Metamath Zero (.mm0), and the sources of scripts/make-developments (.proofs).
if exists("b:current_syntax")
  finish
endif

syntax case match
syntax match mm0Comment "--.*$" contains=@Spell
syntax region mm0Math matchgroup=mm0Dollar start="\$" end="\$"
syntax region mm0String start=+"+ end=+"+ oneline
syntax keyword mm0Statement sort term axiom theorem def notation infixl infixr prefix coercion delimiter
syntax keyword mm0Modifier pure strict provable free
syntax keyword mm0Level prec max lassoc rassoc
syntax match mm0Number "\<\(0\|[1-9][0-9]*\)\>"
syntax match mm0Dummy "\.\h\w*"
" input and output begin statements that mz leaves out.
syntax keyword mm0LeftOut input output

" The keywords of .proofs.
if expand("%:e") ==# "proofs"
  syntax keyword mm0Statement import local with equality congruence propositional
  syntax keyword mm0Step have where by calc rw prop sorry
endif

highlight default link mm0Comment Comment
highlight default link mm0Math String
highlight default link mm0Dollar Delimiter
highlight default link mm0String String
highlight default link mm0Statement Keyword
highlight default link mm0Modifier StorageClass
highlight default link mm0Level Special
highlight default link mm0Number Number
highlight default link mm0Dummy Identifier
highlight default link mm0LeftOut Error
highlight default link mm0Step Conditional

let b:current_syntax = "mm0"
