autocmd BufRead,BufNewFile *.pan setfiletype pan
