" Settings for descriptions of machines (*.kp). With `let g:kp_folding = 1` in vimrc each stage and each section is a fold.
if exists('b:did_ftplugin') | finish | endif
let b:did_ftplugin = 1

setlocal comments=:// commentstring=//\ %s
setlocal formatoptions-=t formatoptions+=croql
setlocal suffixesadd=.kp
setlocal expandtab shiftwidth=2 softtabstop=2
let b:undo_ftplugin = 'setlocal comments< commentstring< formatoptions< suffixesadd< expandtab< shiftwidth< softtabstop<'

if get(g:, 'kp_folding', 0)
  setlocal foldmethod=syntax
  let b:undo_ftplugin .= ' foldmethod<'
endif
