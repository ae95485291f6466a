" antt (*.antt), the language of definitions and proofs. Copy extra/vim to ~/.vim, or add it to 'runtimepath'.
if exists("b:current_syntax")
  finish
endif

syntax case match

syntax keyword anttDeclaration pub mod use abbrev unfoldable opaque record data syntax where module as
syntax keyword anttDeclaration unfolding
syntax keyword anttWord let in λ case of match with if then else Type do rec
syntax keyword anttTactic grind omega simp rw search arith auto subst decide induction cases intro exact apply refl
syntax keyword anttConstant true false None Some Ok Err suc zero tt
syntax match anttType "\<[A-Z][A-Za-z0-9_]*\>"
syntax match anttNumber "\<\(0x\x\+\|\d\+\)\>"
syntax match anttSign "[≡≢≤≥∷∙×→⊥∧∨∘ℕℤ¬λ∀∃]"
syntax match anttName "\%(\<\%(pub\|abbrev\|unfoldable\|opaque\)\s\+\)\@<=[a-z_][A-Za-z0-9_']*"
syntax region anttString start=+"+ skip=+\\.+ end=+"+
syntax match anttRemark "\(^\|\s\)\zs--\(\s.*\)\=$" contains=anttSection,anttQuoted
syntax match anttSection "---- .*$" contained
syntax match anttQuoted "`[^`]*`" contained

highlight default link anttDeclaration Keyword
highlight default link anttWord Statement
highlight default link anttTactic Function
highlight default link anttConstant Constant
highlight default link anttType Type
highlight default link anttNumber Number
highlight default link anttSign Operator
highlight default link anttName Identifier
highlight default link anttString String
highlight default link anttRemark Comment
highlight default link anttSection Title
highlight default link anttQuoted Special

let b:current_syntax = "antt"
