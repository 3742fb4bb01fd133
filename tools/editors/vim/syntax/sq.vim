" Vim syntax file: programs of sq.
if exists("b:current_syntax")
  finish
endif

syntax keyword sqTask void task inner leaf
syntax keyword sqMode in out inout
syntax keyword sqType byte int long
syntax keyword sqDeclaration tunable local blkset rchop ichop
syntax keyword sqMap mappar mapseq mapreduce reduce to
syntax keyword sqControl if else for
syntax keyword sqFunction min max len
syntax match sqNumber "\<\d\+\>"
syntax match sqOperator "[-+*/%&|^~!<>=]"
syntax region sqComment start="/\*" end="\*/" contains=sqTodo
syntax match sqComment "//.*$" contains=sqTodo
syntax keyword sqTodo contained TODO FIXME

highlight default link sqTask Keyword
highlight default link sqMode StorageClass
highlight default link sqType Type
highlight default link sqDeclaration StorageClass
highlight default link sqMap Repeat
highlight default link sqControl Conditional
highlight default link sqFunction Function
highlight default link sqNumber Number
highlight default link sqOperator Operator
highlight default link sqComment Comment
highlight default link sqTodo Todo

let b:current_syntax = "sq"
