" :make compiles the file and goes to the line of its first fault. :make is done by `edison compile`, which keeps no code here
" and shows `line N KIND`; the name of the file is put in front of it, since the program names none.
if exists('current_compiler')
  finish
endif
let current_compiler = 'edison'

CompilerSet makeprg=edison\ compile\ %:S\ /dev/null\ \\\|\ sed\ \"s\\\|^\\\|\"%:S\":\\\|\"
CompilerSet errorformat=%f:line\ %l\ %m,%-G%f:
