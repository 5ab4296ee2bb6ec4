" Rattle's sources are Rust with contracts; those of specs and proofs are antt.
autocmd BufRead,BufNewFile *.rt set filetype=rust
autocmd BufRead,BufNewFile *.antt set filetype=antt
