(* half calls itself on `half p`, which is no part of n that a match took out of it. *)
inductive nat : Type[0] ≝ O : nat | S : nat → nat.
let rec half (n:nat) on n : nat ≝ match n return λ_:nat.nat with [ O ⇒ O | S p ⇒ S (half (half p)) ].
