" The errors of an assembly program in the quickfix list of Vim or Neovim.
"
" Copy this file to ~/.vim/compiler/rvdap.vim, or for Neovim to ~/.config/nvim/compiler/rvdap.vim. Then open a program (FILE.s), and type
" :compiler rvdap (once for each file), and :make after each change that was saved: it checks the file, and goes to the place of its
" first error.

if exists("current_compiler")
  finish
endif
let current_compiler = "rvdap"

CompilerSet makeprg=rvdap\ check\ %:p:S
CompilerSet errorformat=%f:%l:%c:\ error:\ %m,%+Grvdap:\ %m,%-G%.%#
