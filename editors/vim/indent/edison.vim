" Indentation of Edison: two blanks for each level, as the programs of examples/ have it.
" The lines above are read from the last procedure or module at the left margin on, because the indentation depends on the
" constructs that are open.
if exists('b:did_indent')
  finish
endif
let b:did_indent = 1

setlocal indentexpr=EdisonIndent()
setlocal indentkeys=!^F,o,O,0=end,0=else,0=also,0=begin
setlocal shiftwidth=2 softtabstop=2 expandtab
let b:undo_indent = 'setlocal indentexpr< indentkeys< shiftwidth< softtabstop< expandtab<'

if exists('*EdisonIndent')
  finish
endif

" The symbols that count, with comments and strings left out. A comment may go on from the line before.
function s:Symbols(line, state) abort
  let text = a:line
  if a:state.comment
    let end = stridx(text, '"')
    if end < 0
      return []
    endif
    let a:state.comment = 0
    let text = strpart(text, end + 1)
  endif
  let text = substitute(text, "'''\\|'[^']*'\\|\"[^\"]*\"", ' ', 'g')
  let open = stridx(text, '"')
  if open >= 0
    let a:state.comment = 1
    let text = strpart(text, 0, open)
  endif
  let symbols = []
  let at = 0
  while 1
    let [symbol, _, at] = matchstrpos(text, '[A-Za-z][A-Za-z0-9_]*\|[()]', at)
    if at < 0
      return symbols
    endif
    call add(symbols, symbol)
  endwhile
endfunction

" Takes one symbol to the constructs that are open. Each has its word, the indentation of its line, and whether its list has
" begun.
function s:Take(symbol, state, indent) abort
  let open = a:state.open
  if a:symbol ==# '('
    let a:state.level += 1
  elseif a:symbol ==# ')'
    let a:state.level -= 1
  elseif a:symbol ==# 'pre'
    let a:state.heading = 1
  elseif a:symbol ==# 'proc' && a:state.level == 0
    if !a:state.heading
      call add(open, {'word': 'proc', 'indent': a:indent, 'list': 0})
    endif
    let a:state.heading = 0
  elseif a:symbol ==# 'module'
    call add(open, {'word': 'module', 'indent': a:indent, 'list': 0})
  elseif a:symbol ==# 'begin'
    if !empty(open) && !open[-1].list
      let open[-1].list = 1
    else
      call add(open, {'word': 'begin', 'indent': a:indent, 'list': 1})
    endif
  elseif index(['if', 'while', 'when', 'cobegin'], a:symbol) >= 0
    call add(open, {'word': a:symbol, 'indent': a:indent, 'list': 1})
  elseif a:symbol ==# 'end' && !empty(open)
    call remove(open, -1)
  endif
endfunction

function EdisonIndent() abort
  let first = v:lnum - 1
  while first > 1 && getline(first) !~# '^\%(proc\|module\)\>'
    let first -= 1
  endwhile
  " What is open around such a line has its words at the left margin too.
  let around = first > 1 ? [{'word': 'proc', 'indent': 0, 'list': 0}] : []
  let state = {'comment': 0, 'level': 0, 'heading': 0, 'open': around}
  for number in range(max([first, 1]), v:lnum - 1)
    for symbol in s:Symbols(getline(number), state)
      call s:Take(symbol, state, indent(number))
    endfor
  endfor
  if state.comment
    return -1
  endif
  let above = prevnonblank(v:lnum - 1)
  if state.level > 0
    return state.level == 1 && indent(above) == s:Outer(state.open) ? indent(above) + shiftwidth() : indent(above)
  endif
  if empty(state.open)
    return 0
  endif
  let newest = state.open[-1]
  if getline(v:lnum) =~# '^\s*\(end\|else\|also\|begin\)\>'
    return newest.indent
  endif
  if newest.word ==# 'proc' && !newest.list
    " A line that begins with a name goes on with the list of the line above.
    let goes_on = getline(v:lnum) =~# '^\s*\a\w*\s*[,:=]'
    return goes_on ? indent(above) + (getline(above) =~# '^\s*\(const\|var\)\>' ? shiftwidth() : 0) : newest.indent
  endif
  return newest.indent + shiftwidth()
endfunction

" The indentation of the line in which the newest construct was opened.
function s:Outer(open) abort
  return empty(a:open) ? 0 : a:open[-1].indent
endfunction
