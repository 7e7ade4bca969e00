autocmd BufRead,BufNewFile *.gcore setfiletype gcore
