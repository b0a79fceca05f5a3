" Descriptions and scripts by their names' ends. Name others by `:set filetype=txforest`.
autocmd BufRead,BufNewFile *.forest,*.txn setfiletype txforest
