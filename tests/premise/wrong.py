"""Wrong readings of the Rust, or of the premise, that the comparison must notice: the file, what
stands there, and what is put in its place. In the first the division of
`eigenvector_from_row_crosses` is made only where the norm passes its test."""

READINGS = {
    "the division of eigenvector_from_row_crosses under its test": (
        "crates/eigen/specs/RowCrosses.antt",
        """  unit ← vec_div v vector_norm
  pure (if lt min_positive vector_norm && finite vector_norm then Some unit else None)
""",
        """  if lt min_positive vector_norm && finite vector_norm then (do
    unit ← vec_div v vector_norm
    pure (Some unit))
      else pure None
""",
    ),
    "the radicand's division under its test": (
        "crates/cubic_parts/specs/CubicStart.antt",
        """  radicand ← ⊝ ! value ⊘ ! denominator
  if eq denominator plus_zero || lt radicand plus_zero then pure None
      else do
        offset ← √ ! radicand
        pure (Some offset)
""",
        """  if eq denominator plus_zero then pure None
      else do
        radicand ← ⊝ ! value ⊘ ! denominator
        if lt radicand plus_zero then pure None
            else do
              offset ← √ ! radicand
              pure (Some offset)
""",
    ),
    "the leading share divided before its test": (
        "crates/orderings/specs/Condition.antt",
        """    if eq (folded_scale c) plus_zero || not (finite (folded_scale c)) then pure plus_zero
    else ! abs c.cubic3 ⊘ ! folded_scale c
""",
        """    do
      share ← ! abs c.cubic3 ⊘ ! folded_scale c
      if eq (folded_scale c) plus_zero || not (finite (folded_scale c)) then pure plus_zero
          else pure share
""",
    ),
    "2^-1022 itself too small": (
        "crates/ieee754/specs/Traced.antt",
        "leb d (n * 2 ^ (p * 1022))",
        "ltb d (n * 2 ^ (p * 1022))",
    ),
    "from 2^-1074 up": (
        "crates/ieee754/specs/Traced.antt",
        "leb d (n * 2 ^ (p * 1022))",
        "leb d (n * 2 ^ (p * 1074))",
    ),
    "up to 2^1024": (
        "crates/ieee754/specs/Traced.antt",
        "ltb n (d * (2 ^ 1024 - 2 ^ 970) ^ p)",
        "ltb n (d * (2 ^ 1024) ^ p)",
    ),
    "not up to the largest double": (
        "crates/ieee754/specs/Traced.antt",
        "ltb n (d * (2 ^ 1024 - 2 ^ 970) ^ p)",
        "ltb n (d * (2 ^ 1024 - 2 ^ 971) ^ p)",
    ),
    "zero by zero allowed": (
        "crates/ieee754/specs/Traced.antt",
        "    not (eqb n 0) && in_range 1 (m * up e * down d) (n * up d * down e)",
        "    (eqb m 0 || not (eqb n 0)) && in_range 1 (m * up e * down d) (n * up d * down e)",
    ),
}

# of the solve about the first target
READINGS_ABOUT = {
    "a subtraction not counted": (
        "crates/about/specs/Differences.antt",
        "  p1 ← vec_sub world.p1 world.p0\n",
        "  p1 ← pure (vec_sub world.p1 world.p0).value\n",
    ),
    "no subtraction": (
        "crates/about/specs/SolveAbout.antt",
        "      moved ← differences world\n",
        "      moved ← pure world\n",
    ),
}


def changed(root, reading):
    """The text of the file with the wrong reading."""
    path, old, new = (READINGS | READINGS_ABOUT)[reading]
    with open(f"{root}/{path}", encoding="utf-8") as file:
        text = file.read()
    if text.count(old) != 1:
        raise ValueError(f"{path}: the text for \"{reading}\" stands there {text.count(old)} times")
    return {path: text.replace(old, new)}
