" Vim syntax file for the theories and scripts of metatac.

if exists('b:current_syntax')
  finish
endif

syntax case match

" What terms, patterns and sequents are made of. In them a name has no meaning of its own, so `by` or `then` may be an operator.
syntax match metatacComment /#.*$/ contains=@Spell
syntax region metatacString start=/"/ skip=/\\["\\]/ end=/"/ oneline
syntax match metatacNumber /\<\%(0\|[1-9]\d*\)\>\|-[1-9]\d*\>/
syntax match metatacContext /\<[A-Z]\w*\>/
syntax match metatacMetavariable /'[A-Z]\w*/
syntax match metatacVariable /'[a-z]\w*/
syntax match metatacHole /@[a-z]\w*/
syntax match metatacArrow /==>\|-->\|<->\|&/
syntax match metatacBinder /\<[a-z]\w*\%(\s*,\s*[a-z]\w*\)*\ze\s*\./
syntax region metatacBraces matchgroup=metatacBracket start=/{/ end=/}/ contains=@metatacTerm transparent
syntax region metatacBrackets matchgroup=metatacBracket start=/\[/ end=/\]/ contains=@metatacTerm transparent
syntax cluster metatacTerm contains=metatacComment,metatacString,metatacNumber,metatacContext,metatacMetavariable,metatacVariable,metatacHole,metatacArrow,metatacBinder,metatacBraces,metatacBrackets

" A hypothesis with its operator, and a conclusion with its own: the operator may have any name.
syntax match metatacTurnstile />-/
syntax match metatacConclusion />-\s*[a-z]\w*/ contains=metatacTurnstile
syntax match metatacHypothesis /\<[a-z]\w*\s*:=\@!/ nextgroup=metatacOperator skipwhite
syntax match metatacOperator /[a-z]\w*/ contained

" A rule or a rewrite of a theory, and a goal of a script.
syntax match metatacLaw /\<\%(rule\|rewrite\)\s\+[a-z]\w*\s*:=\@!/ contains=metatacLawWord
syntax match metatacLawWord /\<\%(rule\|rewrite\)\>/ contained nextgroup=metatacName skipwhite skipempty
syntax match metatacGoal /\<goal\s\+[a-z]\w*\%(\s\+fuel\s\+\d\+\)\?\s*:=\@!/ contains=metatacGoalWord
syntax match metatacGoalWord /\<goal\>/ contained nextgroup=metatacName skipwhite skipempty
syntax match metatacName /[a-z]\w*/ contained nextgroup=metatacFuel skipwhite skipempty
syntax match metatacFuel /\<fuel\>/ contained nextgroup=metatacNumber skipwhite skipempty

" What follows `by`, up to the next goal.
syntax region metatacBy matchgroup=metatacByWord start=/\<by\>\%(\s*:=\@!\)\@!/ end=/\ze\<goal\s\+[a-z]\w*\%(\s\+fuel\s\+\d\+\)\?\s*:=\@!/ contains=@metatacStrategy
syntax keyword metatacCombinator contained orelse then thenl try repeat progress complete race id fail
syntax match metatacStep /\<\%(rule\|rw\)\>/ contained nextgroup=metatacStepName skipwhite skipempty
syntax match metatacStepName /[a-z]\w*/ contained nextgroup=metatacPlace skipwhite skipempty
syntax match metatacPlace /\<\%(at\|concl\|hyp\)\>/ contained nextgroup=metatacNumber skipwhite skipempty
syntax region metatacGiven matchgroup=metatacPlace start=/\<with\s*\[/ end=/\]/ contained contains=@metatacTerm,metatacNeed
syntax match metatacNeed /\<[A-Z]\w*\ze\s*:=/ contained
syntax region metatacList matchgroup=metatacBracket start=/\[/ end=/\]/ contained contains=@metatacStrategy transparent
syntax region metatacGroup matchgroup=metatacBracket start=/(/ end=/)/ contained contains=@metatacStrategy transparent
syntax cluster metatacStrategy contains=metatacComment,metatacCombinator,metatacStep,metatacPlace,metatacGiven,metatacNumber,metatacList,metatacGroup

highlight default link metatacComment Comment
highlight default link metatacString String
highlight default link metatacNumber Number
highlight default link metatacContext Type
highlight default link metatacMetavariable Identifier
highlight default link metatacVariable Identifier
highlight default link metatacHole Constant
highlight default link metatacArrow Operator
highlight default link metatacTurnstile Operator
highlight default link metatacBinder Special
highlight default link metatacBracket Delimiter
highlight default link metatacHypothesis Special
highlight default link metatacLawWord Keyword
highlight default link metatacGoalWord Keyword
highlight default link metatacByWord Keyword
highlight default link metatacName Function
highlight default link metatacFuel Keyword
highlight default link metatacCombinator Statement
highlight default link metatacStep Statement
highlight default link metatacStepName Function
highlight default link metatacPlace Keyword
highlight default link metatacNeed Type

syntax sync minlines=200

let b:current_syntax = 'metatac'
