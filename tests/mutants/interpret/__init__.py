"""An interpreter, and inputs at which a mutant differs: a body as a tree (trees), values,
operations, expressions (evaluate), calls and statements (machine), random inputs (inputs), the
comparison of a function with its mutant (witness), and values in a plain notation (notation)."""
