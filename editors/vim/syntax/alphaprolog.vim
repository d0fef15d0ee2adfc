" The tokens of αProlog (docs/LANGUAGE.md).
if exists('b:current_syntax')
  finish
endif

syntax case match
syntax iskeyword @,48-57,_,192-255

" What begins no token; the items below are tried first, since they come later.
syntax match alphaprologWrong /\S/

syntax match alphaprologPunctuation /[.,()[\]]/
syntax match alphaprologOperator /[\\#=|;]/
syntax match alphaprologMark /:-\|?-\|->\|:/

syntax match alphaprologWord /\<\k\+/
syntax match alphaprologApplied /\<\k\+\ze\s*(/
syntax match alphaprologBinder /\<\k\+\ze\s*\\/
syntax match alphaprologDeclared /\<\k\+\ze\s*:\%([^-]\|$\)/
syntax match alphaprologDeclared /\%(\<pred\s\+\)\@<=\k\+/
syntax match alphaprologVariable /\<[A-Z_]\k*/
syntax match alphaprologWrong /\<\d\k*/
syntax keyword alphaprologKeyword name_type type pred new exists swap

syntax match alphaprologComment /%.*$/ contains=@Spell

highlight default link alphaprologComment Comment
highlight default link alphaprologKeyword Keyword
highlight default link alphaprologVariable Identifier
highlight default link alphaprologDeclared Type
highlight default link alphaprologBinder Special
highlight default link alphaprologApplied Function
highlight default link alphaprologWord Normal
highlight default link alphaprologMark PreProc
highlight default link alphaprologOperator Operator
highlight default link alphaprologPunctuation Delimiter
highlight default link alphaprologWrong Error

let b:current_syntax = 'alphaprolog'
