" Vim syntax of the texts that x10clock reads. tests/program/editors.py holds it against the lexer's words and signs.
if exists("b:current_syntax")
  finish
endif

syntax case match

syntax keyword x10Declaration shared def val var
syntax keyword x10Conditional if else
syntax keyword x10Repeat for in
syntax keyword x10Activity async clocked finish atomic
syntax keyword x10Type Clock Long
syntax keyword x10Object Console
syntax match   x10Call "\<\%(make\|resume\|advanceAll\|drop\|println\|min\)\ze\s*("
syntax match   x10Number "\<\%(0\|[1-9][0-9]*\)\>"
" what stands last is tried first: `..` is one sign
syntax match   x10Delimiter "[(){},;:.]"
syntax match   x10Operator "\.\.\|[=!<>]=\|[-+*=<>]"
syntax match   x10Comment "//.*$" contains=@Spell
syntax region  x10Comment start="/\*" end="\*/" contains=@Spell

highlight default link x10Declaration Keyword
highlight default link x10Conditional Conditional
highlight default link x10Repeat Repeat
highlight default link x10Activity Statement
highlight default link x10Type Type
highlight default link x10Object Identifier
highlight default link x10Call Function
highlight default link x10Number Number
highlight default link x10Operator Operator
highlight default link x10Delimiter Delimiter
highlight default link x10Comment Comment

let b:current_syntax = "x10clock"
