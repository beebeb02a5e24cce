(* The match on `h n` would carry the constructor D from Q O over to Q n. Its return term does not end, as it
   stands, in a coinductive type, so the match does not count, and f stands under no constructor. *)
inductive nat : Type[0] ≝ O : nat | S : nat → nat.
inductive eq (A:Type[0]) (x:A) : A → Prop ≝ refl : eq A x x.
inductive True : Prop ≝ I : True.
definition False : Prop ≝ ∀P:Prop.P.
definition a : nat → Prop ≝ λn:nat.match n return λ_:nat.Prop with [ O ⇒ True | S p ⇒ False ].
coinductive Q : nat → Prop ≝ D : ∀i:nat.a i → Q (S i) → Q i.
let corec f (h:∀n:nat.eq Prop (Q O) (Q n)) (n:nat) : Q n ≝
  match h n return λX:Prop.λ_:eq Prop (Q O) X.X with [ refl ⇒ D O I (f h (S O)) ].
