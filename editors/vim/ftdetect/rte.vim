autocmd BufRead,BufNewFile *.rte setfiletype rte
