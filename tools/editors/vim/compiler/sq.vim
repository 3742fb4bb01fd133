" Vim compiler file: what tools/say tells of a file of sq, for :make and the list of errors.
" `:compiler sq`, then `:make check %` or `:make eval PROG MAP MACH DATA`; tools/say has to be in the path.
if exists("current_compiler")
  finish
endif
let current_compiler = "sq"
CompilerSet makeprg=say
CompilerSet errorformat=%Erefused\ %m,%Etrapped\ %m,%C\ %#-->\ %f:%l:%c,%-G%.%#
