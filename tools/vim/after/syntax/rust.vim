" What Rattle adds to Rust: contracts, and what stands for the prover alone.
if expand('%:e') !=# 'rt'
  finish
endif
syntax keyword rattleContract requires ensures ghost
syntax match rattleSign /[λ→×≡≢≤∷⊎↔¬∥◌]/
highlight default link rattleContract Keyword
highlight default link rattleSign Operator
