" Indentation of descriptions of machines (*.kp): a level in a stage, in a section, and in the lines that continue a declaration or a statement.
if exists('b:did_indent') | finish | endif
let b:did_indent = 1

setlocal indentexpr=KpIndent() indentkeys=0{,0},o,O,!^F nolisp nosmartindent
let b:undo_indent = 'setlocal indentexpr< indentkeys< lisp< smartindent<'
if exists('*KpIndent') | finish | endif

" The text of a line, without its comment
function! s:text(line) abort
  return substitute(getline(a:line), '\s*\%(//.*\)\?$', '', '')
endfunction

" The last line before this one that has more than layout and comments, or 0
function! s:above(line) abort
  let l:at = a:line - 1
  while l:at > 0 && s:text(l:at) =~# '^\s*$'
    let l:at -= 1
  endwhile
  return l:at
endfunction

" Whether the next line continues this one: no line for kpcore is continued
function! s:is_open(line) abort
  return a:line > 0 && s:text(a:line) !~# '\%([;{}]\|\<end\)$\|^\s*\%(show\|peek\|load\|probe\|next\|commit\)\>'
endfunction

function! KpIndent() abort
  let l:above = s:above(v:lnum)
  if l:above == 0
    return 0
  endif
  let l:level = indent(l:above)
  if s:text(l:above) =~# '{$'
    let l:level += shiftwidth()
  elseif s:is_open(l:above) && !s:is_open(s:above(l:above))
    let l:level += shiftwidth()
  elseif !s:is_open(l:above) && s:is_open(s:above(l:above))
    let l:level -= shiftwidth()
  endif
  if getline(v:lnum) =~# '^\s*}'
    let l:level -= shiftwidth()
  endif
  return max([l:level, 0])
endfunction
