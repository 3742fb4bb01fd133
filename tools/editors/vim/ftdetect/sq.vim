" Programs, mappings, machines, costs and plans of sq. Vim has a type of its own for files *.map: a mapping of sq is one
" in which its word stands, or beside which a program stands.
function! s:Map(folder)
  if search('^\s*mapping\s\+[12]\s*;', 'cnw') || !empty(glob(a:folder . '/*.sq'))
    set filetype=sqfile
  endif
endfunction
autocmd BufNewFile,BufRead *.sq set filetype=sq
autocmd BufNewFile,BufRead *.map call s:Map(expand('<afile>:p:h'))
autocmd BufNewFile,BufRead *.choices,*.mach,*.cost set filetype=sqfile
autocmd BufNewFile,BufRead *.plan set filetype=sqplan
