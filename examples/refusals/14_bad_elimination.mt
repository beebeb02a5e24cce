(* The arms have to name the constructors in the order in which they were declared: O comes first. *)
inductive nat : Type[0] ≝ O : nat | S : nat → nat.
definition predecessor : nat → nat ≝ λn:nat.match n return λ_:nat.nat with [ S p ⇒ p | O ⇒ O ].
