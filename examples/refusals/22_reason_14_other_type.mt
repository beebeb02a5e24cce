(* The arms name the constructors of nat, but what is matched is of type bool. *)
inductive nat : Type[0] ≝ O : nat | S : nat → nat.
inductive bool : Type[0] ≝ true : bool | false : bool.
definition strange : nat ≝ match true return λ_:nat.nat with [ O ⇒ O | S p ⇒ p ].
