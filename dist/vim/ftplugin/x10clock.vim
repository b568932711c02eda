" Settings for texts of x10clock; in neovim, faults while one writes.
if exists("b:did_ftplugin")
  finish
endif
let b:did_ftplugin = 1

let s:cpo = &cpo
set cpo&vim

setlocal commentstring=//\ %s comments=s1:/*,mb:*,ex:*/,://
setlocal shiftwidth=4 softtabstop=4 expandtab
let b:undo_ftplugin = "setlocal commentstring< comments< shiftwidth< softtabstop< expandtab makeprg< errorformat<"
      \ . " | unlet! b:current_compiler"
compiler x10clock

let &cpo = s:cpo
unlet s:cpo

if has("nvim-0.7")
  lua require("x10clock").attach(vim.api.nvim_get_current_buf())
endif
