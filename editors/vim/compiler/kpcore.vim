" :make explains the description in the current file with its lines of ports. The quickfix list is that of :compiler kpview.
if exists('current_compiler') | finish | endif
runtime compiler/kpview.vim
let current_compiler = 'kpcore'
CompilerSet makeprg=(kpcore\ %:S\ >/dev/null)
