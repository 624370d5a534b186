autocmd BufRead,BufNewFile *.edison setfiletype edison
