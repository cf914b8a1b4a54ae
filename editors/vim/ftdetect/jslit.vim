autocmd BufRead,BufNewFile *.lit setfiletype jslit
