" Settings for Edison: comments, the words that % goes between, and the compiler.
if exists('b:did_ftplugin')
  finish
endif
let b:did_ftplugin = 1

setlocal commentstring=\"\ %s\ \"
setlocal comments=
setlocal formatoptions-=t
setlocal matchpairs=(:),[:]
" With the plugin matchit % goes from a word that opens to its else, also and end.
let b:match_words = '\<\%(cobegin\|begin\|if\|while\|when\)\>:\<\%(else\|also\)\>:\<end\>'
let b:match_skip = 'synIDattr(synID(line("."), col("."), 1), "name") =~# "Comment\\|String"'
compiler edison
let b:undo_ftplugin = 'setlocal commentstring< comments< formatoptions< matchpairs< makeprg< errorformat<'
      \ . ' | unlet! b:match_words b:match_skip'
