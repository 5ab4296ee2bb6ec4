" At saving, `rt fmt` lays out the crate that the file is of, and the file is read again. In such files a backslash begins a sign.
if exists('g:loaded_rattle')
  finish
endif
let g:loaded_rattle = 1

function! s:lay_out() abort
  let crate = matchstr(expand('%:p'), '^.*/crates/[^/]\+\ze/\(src\|specs\|proofs\)/')
  if crate ==# '' || !executable('rt')
    return
  endif
  let told = system('cd ' . shellescape(crate) . ' && rt fmt')
  if v:shell_error
    echohl WarningMsg | echomsg split(told, "\n")[-1] | echohl None
    return
  endif
  let view = winsaveview()
  silent edit
  call winrestview(view)
endfunction

let s:signs = {'\=': '≡', '\/=': '≢', '\<=': '≤', '\::': '∷', '\->': '→', '\x': '×', '\l': 'λ', '\N': 'ℕ', '\+': '⊎', '\<->': '↔', '\o': '◌',
      \ '\T': '⊤', '\_': '⊥', '\!': '¬'}

function! s:give_signs() abort
  setlocal commentstring=--\ %s expandtab shiftwidth=2
  if &filetype ==# 'rust'
    setlocal commentstring=//\ %s shiftwidth=4
  endif
  for [typed, sign] in items(s:signs)
    execute 'inoremap <buffer> ' . typed . ' ' . sign
  endfor
endfunction

augroup rattle
  autocmd!
  autocmd BufWritePost *.rt,*.antt nested call s:lay_out()
  autocmd BufRead,BufNewFile *.rt,*.antt call s:give_signs()
augroup END
