" Highlighting of G-CORE query files.
if exists("b:current_syntax")
  finish
endif

syntax case match
syntax sync fromstart
syntax keyword gcoreClause CONSTRUCT MATCH OPTIONAL WHERE WHEN GROUP SET REMOVE ON AS PATH GRAPH VIEW COST UNION INTERSECT MINUS EXISTS SHORTEST ALL
syntax keyword gcoreOperator AND OR NOT IN SUBSET
syntax keyword gcoreTruth TRUE FALSE
syntax keyword gcoreFunction COLLECT COUNT MAX MIN SUM edges length nodes
syntax match gcoreNumber "\<[0-9]\+\>"
syntax match gcoreLabel ":\s*[A-Za-z][A-Za-z0-9_]*\(\s*|\s*[A-Za-z][A-Za-z0-9_]*\)*"
syntax match gcoreProperty "\.\s*[A-Za-z][A-Za-z0-9_]*"
syntax match gcoreComment "#.*$" contains=@Spell
syntax match gcoreEscape "\\["'\\nt]" contained
syntax match gcoreBadEscape "\\[^"'\\nt]" contained
syntax region gcoreText start=+"+ skip=+\\.+ end=+"+ contains=gcoreEscape,gcoreBadEscape
syntax region gcoreText start=+'+ skip=+\\.+ end=+'+ contains=gcoreEscape,gcoreBadEscape

highlight default link gcoreClause Statement
highlight default link gcoreOperator Operator
highlight default link gcoreTruth Boolean
highlight default link gcoreFunction Function
highlight default link gcoreNumber Number
highlight default link gcoreLabel Type
highlight default link gcoreProperty Identifier
highlight default link gcoreComment Comment
highlight default link gcoreText String
highlight default link gcoreEscape SpecialChar
highlight default link gcoreBadEscape Error

let b:current_syntax = "gcore"
