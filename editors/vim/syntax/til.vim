" The Tydi Intermediate Language, TIL, as docs/LANGUAGE.md has it.
if exists('b:current_syntax')
  finish
endif
syntax case match

" The words of the language may be names too, so they are known by their place.
syntax match tilName '\<\a\w*\>' contained
syntax match tilDeclaration '\<\%(namespace\|type\|interface\|streamlet\|impl\|test\)\>\ze\_s\+\a' nextgroup=tilName skipwhite skipempty
syntax match tilOf '\<\%(of\|drive\)\>\ze\_s\+\a'
syntax match tilPlan '\<plan\>\ze\_s*"'
syntax match tilDirection '\%(:\_s*\)\@<=\<\%(in\|out\)\>\ze\_s\+\a'
syntax keyword tilType Null Bits Group Union Stream
syntax match tilArgument '\<\%(data\|throughput\|dimensionality\|synchronicity\|complexity\|direction\|user\|keep\)\>\ze\_s*:\%(:\)\@!'
syntax match tilConstant '\%(:\_s*\)\@<=\<\%(Sync\|Flatten\|Desync\|FlatDesync\|Forward\|Reverse\|true\|false\)\>'
syntax match tilNumber '\<\d\+\%(\.\d\+\)*\>'
syntax match tilLink '--'

syntax region tilText start='"' end='"'
syntax region tilDocumentation start='#' end='#' contains=@Spell
syntax match tilComment '//.*$' contains=tilTodo,@Spell
syntax keyword tilTodo TODO FIXME contained

highlight default link tilDeclaration Keyword
highlight default link tilName Identifier
highlight default link tilOf Keyword
highlight default link tilPlan Keyword
highlight default link tilDirection StorageClass
highlight default link tilType Type
highlight default link tilArgument Label
highlight default link tilConstant Constant
highlight default link tilNumber Number
highlight default link tilLink Operator
highlight default link tilText String
highlight default link tilDocumentation SpecialComment
highlight default link tilComment Comment
highlight default link tilTodo Todo

syntax sync fromstart
let b:current_syntax = 'til'
