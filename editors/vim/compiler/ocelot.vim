" The messages of Ocelot: ':compiler ocelot', and ':make' in the folder of ./ocelot, jump to the line of a fault. Another
" command is asked by 'let g:ocelot_command = "./try check"' before that.
if exists("current_compiler")
  finish
endif
let current_compiler = "ocelot"

" A message names no file, so it gets the name of the source.
let &l:makeprg = get(g:, "ocelot_command", "./ocelot regions") . " %:S 2>&1 >/dev/null \\| sed 's\\#^ocelot:\\#%:ocelot:\\#'"
CompilerSet errorformat=%f:ocelot:\ %m\ in\ line\ %l
CompilerSet errorformat+=%f:ocelot:\ %m\ needs\ lines\ %l\ and\ %e\ in\ %*[A-Za-z0-9_]
CompilerSet errorformat+=%f:ocelot:\ %m
CompilerSet errorformat+=%-G%.%#
