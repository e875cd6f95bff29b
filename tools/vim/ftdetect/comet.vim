" Programs in Comet are files named *.comet.
autocmd BufNewFile,BufRead *.comet setfiletype comet
