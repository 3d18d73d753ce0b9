autocmd BufRead,BufNewFile *.setl setfiletype setl
