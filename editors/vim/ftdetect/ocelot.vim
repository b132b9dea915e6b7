" Sources of Ocelot.
autocmd BufNewFile,BufRead *.oc setfiletype ocelot
