" The tokens of LOIS scripts (docs/LANGUAGE.md). tests/editors.sh compares them with the lexer's.
if exists('b:current_syntax')
  finish
endif

syntax case match
syntax keyword loisStructure equality order
syntax keyword loisStatement parameter let add to assert print
syntax keyword loisControl for in where if else while turns
syntax keyword loisCondition not and or exists forall subset
syntax keyword loisFunction empty union inter minus flatten part reach product complement minimise
syntax keyword loisConstant atoms true false
syntax keyword loisReserved case end

syntax match loisName /\a\w*/
syntax match loisTag /'\a\w*/
syntax match loisNumber /\d\+/
syntax match loisOperator /:=\|!=\|[=<]/
syntax match loisDelimiter /[][(){};,]/
syntax match loisColon /:=\@!/
syntax match loisComment /#.*/

highlight default link loisStructure Type
highlight default link loisStatement Statement
highlight default link loisControl Repeat
highlight default link loisCondition Operator
highlight default link loisFunction Function
highlight default link loisConstant Constant
highlight default link loisReserved Error
highlight default link loisName Identifier
highlight default link loisTag String
highlight default link loisNumber Number
highlight default link loisOperator Operator
highlight default link loisDelimiter Delimiter
highlight default link loisColon Delimiter
highlight default link loisComment Comment

setlocal commentstring=#\ %s
let b:current_syntax = 'lois'
