(* The name after `on` has to be one of the function's binders, which n is and k is not. *)
inductive nat : Type[0] ≝ O : nat | S : nat → nat.
let rec same (n:nat) on k : nat ≝ n.
