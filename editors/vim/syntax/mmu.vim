" Proof texts of mz (.mmu).
if exists("b:current_syntax")
  finish
endif

syntax case match
syntax match mmuComment "\(^\|[ ()]\)\@<=--.*$" contains=@Spell
syntax match mmuName "[A-Za-z_][A-Za-z0-9_]*" contained
" The keyword that begins a statement, and the name behind it.
syntax match mmuStatement "(\@<=\(local \+\)\?\(sort\|term\|axiom\|def\|theorem\)\>" nextgroup=mmuName skipwhite
syntax keyword mmuModifier pure strict provable free
syntax match mmuStep ":\(conv\|let\|refl\|sym\|unfold\)\>"
" What is open: compile refuses it.
syntax match mmuOpen ":sorry\>"
" What can stand nowhere: a byte that isn't allowed.
syntax match mmuError "[^ -~]"

highlight default link mmuComment Comment
highlight default link mmuName Function
highlight default link mmuStatement Keyword
highlight default link mmuModifier StorageClass
highlight default link mmuStep Conditional
highlight default link mmuOpen Todo
highlight default link mmuError Error

let b:current_syntax = "mmu"
