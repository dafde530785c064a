" Syntax of Rattle (.rt) and of its definitions and proofs (.antt), for Vim and Neovim: copy this file to
" ~/.vim/syntax/, and add to ~/.vim/filetype.vim:  au BufNewFile,BufRead *.rt,*.antt setfiletype rattle
if exists('b:current_syntax')
  finish
endif
if expand('%:e') ==# 'rt'
  runtime! syntax/rust.vim
  unlet! b:current_syntax
  syntax keyword rattleClause requires ensures ghost invariant prove
else
  syntax keyword rattleClause record data abbrev unfoldable pub mod use where let in
  syntax keyword rattleTactic search omega cc subst rw refl absurd by arith rules
  syntax match rattleComment /--.*$/
endif
syntax match rattleSign /[→↔≡≢≤λ×∀∃⊥⊤¬∷◌]/
syntax keyword rattleSort Type ℕ ℤ Bool List Option Result
highlight default link rattleClause Keyword
highlight default link rattleTactic Function
highlight default link rattleComment Comment
highlight default link rattleSign Operator
highlight default link rattleSort Type
let b:current_syntax = 'rattle'
