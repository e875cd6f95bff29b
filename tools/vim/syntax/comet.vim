" Colors of Comet. To install, put `set runtimepath+=COMET/tools/vim` into ~/.vimrc, with this folder for COMET.
if exists('b:current_syntax')
  finish
endif

syntax keyword cometStatement import include function return new call neighbor whenever
syntax keyword cometConditional if else select selectMin selectMax
syntax keyword cometRepeat while for forall parall in
syntax keyword cometBlock with atomic delay
syntax keyword cometType void int bool var inc set range
syntax keyword cometClass Solver LocalSolver ConstraintSystem FunctionExpr FunctionSum UniformDistribution
syntax keyword cometClass InputFile MinNeighborSelector BestMonitor Solution
syntax keyword cometBoolean true false
syntax keyword cometAggregate sum min max all and or setof argMin argMax
syntax keyword cometOutput cout endl

syntax match cometFunction "\<\(abs\|count\|card\|member\|union\|inter\|minus\|alldifferent\|atmost\|atleast\)\>\ze\s*("
syntax match cometFunction "\<\(exactly\|knapsack\|multiknapsack\|sequence\|user\)\>\ze\s*("
syntax match cometNumber "\<\d\+\>"
syntax match cometOperator ":=:\|:=\|<-\|@"
syntax match cometEscape contained "\\[nt\"\\]"
syntax region cometString start=+"+ skip=+\\.+ end=+"+ oneline contains=cometEscape
syntax keyword cometTodo contained TODO FIXME XXX
syntax match cometComment "//.*$" contains=cometTodo
syntax region cometComment start="/\*" end="\*/" contains=cometTodo

highlight default link cometStatement Statement
highlight default link cometConditional Conditional
highlight default link cometRepeat Repeat
highlight default link cometBlock Statement
highlight default link cometType Type
highlight default link cometClass Structure
highlight default link cometBoolean Boolean
highlight default link cometAggregate Keyword
highlight default link cometOutput Keyword
highlight default link cometFunction Function
highlight default link cometNumber Number
highlight default link cometOperator Operator
highlight default link cometEscape SpecialChar
highlight default link cometString String
highlight default link cometTodo Todo
highlight default link cometComment Comment

let b:current_syntax = 'comet'
