" Files whose names end in .glp are job texts of GLP.
autocmd BufNewFile,BufRead *.glp setfiletype glp
