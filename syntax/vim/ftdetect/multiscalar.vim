" Program texts of multiscalar: a .s file with a .task line near its head.
autocmd BufNewFile,BufRead *.s if search('^\s*\.task\s', 'nw') | setfiletype multiscalar | endif
