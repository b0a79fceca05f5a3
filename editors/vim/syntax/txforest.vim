" Descriptions and scripts of txforest.
if exists("b:current_syntax")
  finish
endif

syntax keyword forestForm file dir link opt pred
syntax keyword forestTransaction txn
syntax keyword forestDefinition def
syntax keyword forestMove into to next prev out down up top
syntax keyword forestCommand let set fetch value validate print store create remove try abort
syntax keyword forestControl if else each in
syntax keyword forestShape str int bool names pair table
syntax keyword forestOperator only and or not union minus one lines size text first second keys present
syntax keyword forestConstant true false empty
syntax match forestNumber "\<\(0\|[1-9][0-9]*\)\>"
syntax match forestMark "::\|==\|++\|[-+<=|]"
syntax match forestEscape "\\\([\"\\n]\|x[0-9a-fA-F]\{2}\)" contained
syntax region forestString start=+"+ skip=+\\.+ end=+"+ oneline contains=forestEscape
syntax match forestComment "#.*$"

highlight default link forestForm Type
highlight default link forestTransaction Structure
highlight default link forestDefinition Structure
highlight default link forestMove Statement
highlight default link forestCommand Statement
highlight default link forestControl Conditional
highlight default link forestShape Type
highlight default link forestOperator Operator
highlight default link forestConstant Constant
highlight default link forestNumber Number
highlight default link forestMark Operator
highlight default link forestEscape SpecialChar
highlight default link forestString String
highlight default link forestComment Comment

let b:current_syntax = "txforest"
