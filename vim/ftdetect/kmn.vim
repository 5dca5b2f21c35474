" Sets the file types of keyboard sources and touch layouts. A touch layout is JSON.
autocmd BufRead,BufNewFile *.kmn setfiletype kmn
autocmd BufRead,BufNewFile *.keyman-touch-layout setfiletype json
