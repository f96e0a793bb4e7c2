" Vim syntax file. Language: RTE-U. The keywords are those of crates/syntax/src/table.rt, each once;
" node editors/try.js tells where they differ.
if exists("b:current_syntax")
  finish
endif

syntax case match
syntax iskeyword 48-57,65-90,95,97-122

syntax keyword rteStructure program end const device in out event monitor condition entry procedure
syntax keyword rteStructure function returns return process periodic atEvent frame first activation
syntax keyword rteStructure atTime var begin handler
syntax keyword rteType int boolean array of
syntax keyword rteConditional if then else
syntax keyword rteRepeat for do exit when
syntax keyword rteStatement put get wait noLongerThan signal broadcast empty
syntax keyword rteException except assert
syntax keyword rteOperator and or not div mod
syntax keyword rteBoolean true false

syntax match rteNumber "\<\d\+\>"
syntax match rteComment "%.*$" contains=rteTodo
syntax keyword rteTodo contained TODO FIXME XXX

highlight default link rteStructure Keyword
highlight default link rteType Type
highlight default link rteConditional Conditional
highlight default link rteRepeat Repeat
highlight default link rteStatement Statement
highlight default link rteException Exception
highlight default link rteOperator Operator
highlight default link rteBoolean Boolean
highlight default link rteNumber Number
highlight default link rteComment Comment
highlight default link rteTodo Todo

let b:current_syntax = "rte"
