" The syntax of .antt: what specs/ and proofs/ are written in.
if exists('b:current_syntax')
  finish
endif
syntax iskeyword @,48-57,_,192-255,-
syntax match anttComment /--\( .*\)\?$/
syntax keyword anttDeclare pub use module mod where record data abbrev unfoldable opaque irreducible infix infixl infixr ruleset
syntax keyword anttTerm let in elim as by open rw simp search assumption omega grind cc hlevel first_of
syntax keyword anttType Type Unit
syntax match anttNumber /\<\d\+\>/
syntax match anttSign /[λ→×≡≢≤∷⊎↔¬∥◌↦]/
syntax match anttHole /\(^\|\s\|(\)\zs?\ze\(\s\|)\|$\)/
highlight default link anttComment Comment
highlight default link anttDeclare Keyword
highlight default link anttTerm Statement
highlight default link anttType Type
highlight default link anttNumber Number
highlight default link anttSign Operator
highlight default link anttHole Todo
let b:current_syntax = 'antt'
