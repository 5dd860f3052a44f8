"""The prover's verdicts: the crates that are tried (crates), a copy of the repository to check a
changed crate in (bench), what the prover's words come to (verdicts), the rounds of a crate
(rounds), and what is written: results, and the table of RESULT.md. Beside these the must-fail
edits, each at an input where it differs (edits), and what each is refused for (refusals)."""
