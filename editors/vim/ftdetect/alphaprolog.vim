autocmd BufNewFile,BufRead *.apl setfiletype alphaprolog
