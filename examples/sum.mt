(* The naturals, equality, addition, and a first proof. *)
inductive nat : Type[0] ≝ O : nat | S : nat → nat.
inductive eq (A:Type[0]) (x:A) : A → Prop ≝ refl : eq A x x.
let rec plus (n:nat) (m:nat) on n : nat ≝
  match n return λ_:nat.nat with [ O ⇒ m | S p ⇒ S (plus p m) ].
definition two : nat ≝ S (S O).
theorem two_and_two : eq nat (plus two two) (S (S two)).
exact (refl nat (S (S two))).
qed.
