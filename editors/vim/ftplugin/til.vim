" The Tydi Intermediate Language, TIL: comments, and the program that checks a project.
if exists('b:did_ftplugin')
  finish
endif
let b:did_ftplugin = 1

setlocal commentstring=//\ %s comments=://
setlocal shiftwidth=2 softtabstop=2 expandtab
setlocal suffixesadd=.til

" :make checks the links of the project, and jumps to its error: tydi: NAME FILE LINE:COLUMN DETAILS
setlocal makeprg=tydi\ link\ %:S
setlocal errorformat=tydi:\ %m\ %f\ %l:%c,tydi:\ %m\ %f\ %l:%c\ %.%#,%-G%.%#

let b:undo_ftplugin = 'setlocal commentstring< comments< shiftwidth< softtabstop< expandtab< suffixesadd< makeprg< errorformat<'
