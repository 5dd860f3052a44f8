"""What can be changed in a function's body, and by what: the texts that may stand for an operator
or a constant (changes), the places and their marks (places), the reading that marks them
(expressions, bodies), and the order in which a function's mutants are tried (mutants)."""
