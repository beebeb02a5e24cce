(* O is no type, so nothing is of type O. *)
inductive nat : Type[0] ≝ O : nat | S : nat → nat.
axiom strange : O.
