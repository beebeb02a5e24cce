(* This match has no return term. The grammar has it so, but the program does not take it yet. *)
inductive nat : Type[0] ≝ O : nat | S : nat → nat.
definition predecessor : nat → nat ≝ λn:nat.match n with [ O ⇒ O | S p ⇒ p ].
