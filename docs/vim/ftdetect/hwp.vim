" Fault scripts of hwp.
autocmd BufRead,BufNewFile *.hwp setfiletype hwp
