(* No numbers for a, b and c meet all three constraints. *)
universe constraint a < b.
universe constraint b < c.
universe constraint c < a.
