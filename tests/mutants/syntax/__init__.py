"""What the crates declare: tokens and a cursor over them, types, how an expression begins
(grammar), a file's items, and the crates' files together (world)."""
