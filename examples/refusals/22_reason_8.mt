(* O is no function. *)
inductive nat : Type[0] ≝ O : nat | S : nat → nat.
definition strange : nat ≝ O O.
