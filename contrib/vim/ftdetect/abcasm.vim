autocmd BufNewFile,BufRead *.abcasm setfiletype abcasm
