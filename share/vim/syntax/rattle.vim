" Rattle: Rust with contracts.
if exists("b:current_syntax")
  finish
endif
runtime! syntax/rust.vim
syntax keyword rattleContract requires ensures ghost invariant measure decreases view
syntax match rattleClause "\<\(requires\|ensures\)\s\+\zs\w\+\ze\s*{"
syntax match rattleSymbol "[≡≤≢→↔×⊎λ∀ℕ⊥◌]"
highlight default link rattleContract Keyword
highlight default link rattleClause Identifier
highlight default link rattleSymbol Operator
let b:current_syntax = "rattle"
