autocmd BufRead,BufNewFile *.til setfiletype til
