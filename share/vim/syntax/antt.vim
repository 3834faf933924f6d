" Definitions, laws and proofs of Rattle.
if exists("b:current_syntax")
  finish
endif
syntax match anttComment "--.*$"
syntax region anttString start=+"+ skip=+\\"+ end=+"+
syntax keyword anttKeyword use pub mod module abbrev record data where let in unfolding if then else do as infix
syntax match anttNumber "\<\d\+\>"
syntax match anttSymbol "[≡≤≢→↔×⊎λ∷ℕ⊥◌←]\|++\|\<Type\>"
syntax match anttName "^\s*\(abbrev \|record \|data \)\?\(pub \)\?\zs[A-Za-z_][A-Za-z0-9_'-]*\ze\s*:"
highlight default link anttComment Comment
highlight default link anttString String
highlight default link anttKeyword Keyword
highlight default link anttNumber Number
highlight default link anttSymbol Operator
highlight default link anttName Identifier
let b:current_syntax = "antt"
