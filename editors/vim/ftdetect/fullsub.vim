autocmd BufRead,BufNewFile *.fsub setfiletype fullsub
