" Vim syntax file: plan files of sq.
if exists("b:current_syntax")
  finish
endif

syntax keyword sqPlanHead plan node buffer leaf array
syntax keyword sqPlanMode in out inout
syntax keyword sqPlanType byte int long
syntax keyword sqPlanPart seq par at
syntax keyword sqPlanEvent copy fill acc run
syntax keyword sqPlanValue min max lowest
syntax match sqPlanNumber "\<\d\+\>"
syntax region sqPlanComment start="/\*" end="\*/"
syntax match sqPlanComment "//.*$"

highlight default link sqPlanHead Keyword
highlight default link sqPlanMode StorageClass
highlight default link sqPlanType Type
highlight default link sqPlanPart Repeat
highlight default link sqPlanEvent Function
highlight default link sqPlanValue Constant
highlight default link sqPlanNumber Number
highlight default link sqPlanComment Comment

let b:current_syntax = "sqplan"
