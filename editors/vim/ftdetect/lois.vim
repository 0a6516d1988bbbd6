autocmd BufNewFile,BufRead *.lois setfiletype lois
