" LOFT sources (docs/LANGUAGE.md, "Tokens"). Of two matches at one place the later one here counts.
if exists("b:current_syntax")
    finish
endif

syntax case match
syntax iskeyword a-z,A-Z,48-57,_

syntax keyword loftDeclaration scheduler event shared module start outside local in to as unlinked
syntax keyword loftStatement print cooperate generate await select get join create stop suspend resume
syntax keyword loftStatement broadcast link unlink run halt for at into
syntax keyword loftControl if then else while do repeat end
syntax keyword loftKind int thread
syntax keyword loftValue self code mask

syntax match loftInvalid "[^ \t\r]"
syntax match loftPunctuation "[;,.(){}]"
syntax match loftOperator "[=+\-*/%!<>]\|==\|!=\|<=\|>=\|&&\|||"
syntax match loftNumber "\d\+"
syntax match loftInvalid "\d\+\h\w*"
syntax match loftName "\h\w*"
syntax match loftModule "\h\w*\ze[ \t]*("
syntax match loftInvalid "\h\w\{64,}"
syntax match loftInvalid +"[^"]*"\?+
syntax match loftText +"[\x20\x21\x23-\x5b\x5d-\x7e]\{0,120}"+
syntax match loftComment "//.*" contains=@Spell

highlight default link loftDeclaration Keyword
highlight default link loftStatement Statement
highlight default link loftControl Conditional
highlight default link loftKind Type
highlight default link loftValue Constant
highlight default link loftNumber Number
highlight default link loftText String
highlight default link loftComment Comment
highlight default link loftName Identifier
highlight default link loftModule Function
highlight default link loftOperator Operator
highlight default link loftPunctuation Delimiter
highlight default link loftInvalid Error

let b:current_syntax = "loft"
