" Syntax of descriptions of machines (*.kp), the language of kp(5)
if exists('b:current_syntax') | finish | endif

syntax case match
syntax keyword kpSection machine stages stage image stalls inputs end
syntax keyword kpDeclaration reg file pipe result hint sample fn
syntax keyword kpStatement read let put set aim
syntax keyword kpClause at when guess from to step
syntax keyword kpFunction zext sext

" E2: a run that starts with a digit is a number or a literal. Of two matches that start at one place the later one counts.
syntax match kpWrong "\<\d[0-9A-Za-z_']*"
syntax match kpNumber "\<\d\+[0-9A-Za-z_']\@!"
syntax match kpLiteral "\<\d\+'[bB][01][01_]*[0-9A-Za-z_']\@!"
syntax match kpLiteral "\<\d\+'[oO][0-7][0-7_]*[0-9A-Za-z_']\@!"
syntax match kpLiteral "\<\d\+'[dD]\d[0-9_]*[0-9A-Za-z_']\@!"
syntax match kpLiteral "\<\d\+'[hH]\x[0-9A-Fa-f_]*[0-9A-Za-z_']\@!"

" Lines for kpcore, after `end`
syntax match kpPort "^\s*\%(show\|peek\|load\|probe\|next\|commit\)\ze\%(\s\|$\)"

" A fold for each stage and each section
syntax region kpBlock matchgroup=kpOperator start="{\ze\s*\%(//.*\)\?$" end="^\s*}" transparent fold

syntax match kpOperator "[-+*&|^~?<>]\|==\|->"
syntax match kpComment "//.*$" contains=kpTodo,@Spell
syntax match kpDirective "^\s*//:.*$"
syntax keyword kpTodo contained TODO FIXME XXX

highlight default link kpSection Structure
highlight default link kpDeclaration Type
highlight default link kpStatement Statement
highlight default link kpClause Keyword
highlight default link kpFunction Function
highlight default link kpPort Keyword
highlight default link kpNumber Number
highlight default link kpLiteral Number
highlight default link kpWrong Error
highlight default link kpOperator Operator
highlight default link kpComment Comment
highlight default link kpDirective PreProc
highlight default link kpTodo Todo

let b:current_syntax = 'kp'
