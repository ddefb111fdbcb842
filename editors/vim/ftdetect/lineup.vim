autocmd BufRead,BufNewFile *.bundle,*.lineup setfiletype lineup
