" Vim syntax file for SETL. Made by editors/make from the lexer's table: edit that, not this.
if exists("b:current_syntax")
  finish
endif
syntax case ignore
syntax iskeyword @,48-57,_

syntax keyword setlStructure program procedure proc var repr end base
syntax keyword setlConditional if then elseif else
syntax keyword setlRepeat for while quit continue
syntax keyword setlStatement return stop fail succeed pass from fromb frome
syntax keyword setlInOut print read
syntax keyword setlPassing rd wr rw local remote sparse
syntax keyword setlMode general int integer string boolean atom elmt set tuple smap mmap
syntax keyword setlQuantifier exists forall notexists
syntax keyword setlConstant om true false newat eof ok
syntax keyword setlWordOperator and or not impl in notin subset incs with less lessf npow max min div mod abs even odd pow domain range arb str is_integer is_string is_boolean is_atom is_tuple is_set is_map
syntax match setlSign "\*\*\|\.\.\|\/=\|:=\|<=\|>=\|#\|(\|)\|\*\|+\|,\|-\|\/\|:\|;\|<\|=\|>\|\[\|\]\|{\||\|}"
syntax match setlNumber "\<\d\+"
syntax region setlString start="'" skip="''" end="'" oneline
syntax match setlComment "\$.*$" contains=setlTodo
syntax keyword setlTodo contained TODO FIXME XXX

highlight default link setlStructure Structure
highlight default link setlConditional Conditional
highlight default link setlRepeat Repeat
highlight default link setlStatement Statement
highlight default link setlInOut Function
highlight default link setlPassing StorageClass
highlight default link setlMode Type
highlight default link setlQuantifier Keyword
highlight default link setlConstant Constant
highlight default link setlWordOperator Operator
highlight default link setlSign Operator
highlight default link setlNumber Number
highlight default link setlString String
highlight default link setlComment Comment
highlight default link setlTodo Todo

let b:current_syntax = "setl"
