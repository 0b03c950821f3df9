autocmd BufNewFile,BufRead *.kp,*.ports setfiletype kp
autocmd BufNewFile,BufRead *.dlx setfiletype kpdlx
