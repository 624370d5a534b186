" Vim syntax file for Edison: the symbols of docs/reference/language.md.
if exists('b:current_syntax')
  finish
endif

syntax case match
setlocal iskeyword=@,48-57,_

syntax keyword edisonStatement begin end skip do else also
syntax keyword edisonConditional if
syntax keyword edisonRepeat while
syntax keyword edisonConcurrent when cobegin
syntax keyword edisonStructure module proc pre post lib
syntax keyword edisonStorage const var val
syntax keyword edisonTypeDeclaration enum record array set
syntax keyword edisonOperator and or not div mod in
syntax keyword edisonType int char bool
syntax keyword edisonBoolean false true
syntax keyword edisonStandard halt

" A numeral has digits alone; one that a letter follows is a numeral and a name.
syntax match edisonNumber /\<\d\+/
" A name takes its digits with it.
syntax match edisonName /\<\a[A-Za-z0-9_]*\>/ contains=edisonStatement,edisonConditional,edisonRepeat,edisonConcurrent,edisonStructure,edisonStorage,edisonTypeDeclaration,edisonOperator,edisonType,edisonBoolean,edisonStandard transparent
syntax match edisonSpecial /:=\|<>\|<=\|>=\|[=<>+\-*]/

" A string is on one line; three apostrophes are the string of one apostrophe.
syntax match edisonString /'[^']\+'/
syntax match edisonString /'''/
" A comment stands between two quotation marks and may span lines.
syntax region edisonComment start=/"/ end=/"/ contains=edisonTodo,@Spell
syntax keyword edisonTodo contained TODO FIXME

highlight default link edisonStatement Statement
highlight default link edisonConditional Conditional
highlight default link edisonRepeat Repeat
highlight default link edisonConcurrent Keyword
highlight default link edisonStructure Structure
highlight default link edisonStorage StorageClass
highlight default link edisonTypeDeclaration Typedef
highlight default link edisonOperator Operator
highlight default link edisonSpecial Operator
highlight default link edisonType Type
highlight default link edisonBoolean Boolean
highlight default link edisonStandard Function
highlight default link edisonNumber Number
highlight default link edisonString String
highlight default link edisonComment Comment
highlight default link edisonTodo Todo

let b:current_syntax = 'edison'
