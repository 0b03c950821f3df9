" Syntax of programs of the sample DLX (*.dlx)
if exists('b:current_syntax') | finish | endif

syntax case match
syntax match kpdlxWrong "\<[a-z]\w*\>"
syntax match kpdlxName "\%(\<\%(beqz\|bnez\)\s\+r\d\+\s*,\s*\|\<\%(j\|jal\)\s\+\)\@<=\h\w*"
syntax match kpdlxRegister "\<r\%(\d\|[12]\d\|3[01]\)\>"
syntax match kpdlxMnemonic "\<\%(add\|sub\|and\|or\|xor\|sll\|srl\|mul\|seq\|slt\|nop\|addi\|slti\|andi\|ori\|xori\|lhi\|lw\|sw\|beqz\|bnez\|j\|jal\|jr\|jalr\)\>"
syntax match kpdlxMnemonic "\.word"
syntax match kpdlxNumber "-\?\<\d\+\>\|\<0x\x\+\>"
syntax match kpdlxLabel "^\s*\h\w*\ze\s*:"
syntax match kpdlxComment ";.*$" contains=@Spell

highlight default link kpdlxWrong Error
highlight default link kpdlxName Identifier
highlight default link kpdlxRegister Identifier
highlight default link kpdlxMnemonic Statement
highlight default link kpdlxNumber Number
highlight default link kpdlxLabel Label
highlight default link kpdlxComment Comment

let b:current_syntax = 'kpdlx'
