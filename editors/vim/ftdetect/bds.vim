autocmd BufNewFile,BufRead *.bds setfiletype bds
