autocmd BufRead,BufNewFile *.lab,*.vino setfiletype lab
autocmd BufRead,BufNewFile *.case setfiletype vinocase
autocmd BufRead,BufNewFile *.rt setfiletype rattle
autocmd BufRead,BufNewFile *.antt setfiletype antt
