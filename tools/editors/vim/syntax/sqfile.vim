" Vim syntax file: mappings, machines and costs of sq.
if exists("b:current_syntax")
  finish
endif

syntax keyword sqFileHead mapping machine cost entry instance level levels node
syntax keyword sqFileItem tunable call spread cyclic blocked capacity children row byte
syntax keyword sqFileKind inner leaf
syntax match sqFileNumber "\<\d\+\>"
syntax match sqFileSign "->\|::\|@"
syntax region sqFileComment start="/\*" end="\*/"
syntax match sqFileComment "//.*$"

highlight default link sqFileHead Keyword
highlight default link sqFileItem StorageClass
highlight default link sqFileKind Type
highlight default link sqFileNumber Number
highlight default link sqFileSign Operator
highlight default link sqFileComment Comment

let b:current_syntax = "sqfile"
