autocmd BufNewFile,BufRead *.loft,*.locks setfiletype loft
autocmd BufNewFile,BufRead *.listing setfiletype loftlisting
