" Texts of x10clock.
autocmd BufRead,BufNewFile *.x10 setfiletype x10clock
