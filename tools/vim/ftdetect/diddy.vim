autocmd BufRead,BufNewFile *.diddy setfiletype diddy
autocmd BufRead,BufNewFile *.answer,*.output setfiletype diddyanswer
