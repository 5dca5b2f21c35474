" Checks the current keyboard source with `keyman --check`, and compiles it into a file of the same name with the suffix .kmx if it has no
" error. `:make` adds the errors, warnings and notes to the quickfix list.
if exists("current_compiler")
  finish
endif
let current_compiler = "keyman"

let s:save_cpo = &cpo
set cpo&vim

" The braces keep both commands together, since Vim redirects the output of the whole.
CompilerSet makeprg={\ keyman\ --check\ %:S\ &&\ keyman\ compile\ %:S\ %:r:S.kmx;\ }
" Errors with a column, warnings and notes without one, and the messages of the launcher, except about the unproved program. The column
" counts characters, and Vim has none such: %c counts bytes, and %v columns of the screen.
CompilerSet errorformat=
      \%f:%l:%v:\ %trror\ %m,
      \%f:%l:\ %tarning\ %m,
      \%f:%l:\ %tote\ %m,
      \%-Gkeyman:\ building\ an\ unproved\ program%.%#,
      \keyman:\ %m,
      \%-G%.%#

let &cpo = s:save_cpo
unlet s:save_cpo
