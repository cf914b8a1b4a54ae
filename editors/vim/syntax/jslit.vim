" Litmus texts of jslit, by the forms of docs/FORMAT.md.
if exists("b:current_syntax")
  finish
endif

syntax match jslitName /\<\h\w*\>/
syntax match jslitNumber /\<\%(0\|[1-9]\d\{0,9}\)\>/
syntax match jslitOperator /==\|!=\|&&\|||\|=\|!/
syntax match jslitBracket /[][(){},.]/
syntax match jslitRegister /\<r[0-7]\>/
syntax match jslitView /\<\%(U8\|U16\|U32\|DV\|Atomics\)\>/
syntax match jslitCall /\%(\<Atomics\s*\.\s*\)\@<=\%(load\|store\|exchange\|compareExchange\)\>/
syntax match jslitCall /\%(\<DV\s*\.\s*\)\@<=[gs]etUint\%(8\|16\|32\)\>/
syntax match jslitBoolean /\<true\>/
syntax match jslitKeyword /\<\%(if\|else\)\>/
syntax match jslitLine /^\s*\zs\%(test\|bytes\|agent\|check\)\>/
syntax match jslitComment /\/\/.*/ contains=jslitExpect
syntax match jslitExpect /\%(^\/\/ \)\@<=expect:.*/ contained

highlight default link jslitName Identifier
highlight default link jslitNumber Number
highlight default link jslitOperator Operator
highlight default link jslitBracket Delimiter
highlight default link jslitRegister Special
highlight default link jslitView Type
highlight default link jslitCall Function
highlight default link jslitBoolean Boolean
highlight default link jslitKeyword Conditional
highlight default link jslitLine Keyword
highlight default link jslitComment Comment
highlight default link jslitExpect Todo

let b:current_syntax = "jslit"
