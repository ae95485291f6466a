" Rattle (*.rt): Rust with contracts. Copy extra/vim to ~/.vim, or add it to 'runtimepath'.
if exists("b:current_syntax")
  finish
endif

syntax case match

" Rust's colours, and those of contracts above them.
runtime! syntax/rust.vim
unlet! b:current_syntax

syntax match rattleClause "^\s*\zs\(requires\|ensures\|decreases\|invariant\|variant\)\>\(\s\+[a-z_][a-z0-9_]*\)\=\ze\s*{" contains=rattleClauseWord
syntax keyword rattleClauseWord requires ensures decreases invariant variant contained
syntax match rattleGhost "^\s*\zs\(pub \)\=ghost\( use\| fn\| let\)\=\>"
syntax match rattleSign "[≡≢≤≥∷∙×→⊥∧∨∘ℕℤ]"

highlight default link rattleClause Label
highlight default link rattleClauseWord Statement
highlight default link rattleGhost PreProc
highlight default link rattleSign Operator

let b:current_syntax = "rattle"
