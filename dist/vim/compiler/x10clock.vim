" `:make` asks `x10clock explain` of the file, and goes to the fault. One without a place, as a missing `main`, is the
" file's as a whole. The lines below the fault stay in the list as text.
if exists("current_compiler")
  finish
endif
let current_compiler = "x10clock"

let s:cpo = &cpo
set cpo&vim

CompilerSet makeprg=x10clock\ explain\ %:S
" the line of standard error; a fault at a place; and one without
CompilerSet errorformat=
      \%-Gx10clock:\ %[FMV]%\\d%.%#,
      \%E%f:%l:%c:\ %m,
      \%E%f:\ %\\%%(%[FMV]%\\d%\\)%\\@=%m

let &cpo = s:cpo
unlet s:cpo
