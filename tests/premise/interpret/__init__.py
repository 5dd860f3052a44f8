"""An interpreter of the definitions, crates/*/specs/*.antt: their text as tokens, terms and modules
(tokens, terms, modules), what the library's names stand for (library), what the processor raises at
an operation (raised), and the definitions compiled to Python (compiled). Nothing of the prover or
its library is used."""
