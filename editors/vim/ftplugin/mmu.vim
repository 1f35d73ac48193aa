" Comments begin with two hyphens; lines are indented by their parentheses.
setlocal commentstring=--\ %s lisp
setlocal lispwords=sort,term,axiom,def,theorem,local
let b:undo_ftplugin = "setlocal commentstring< lisp< lispwords<"
