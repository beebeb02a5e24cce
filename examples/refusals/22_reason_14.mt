(* Which of two statements is proved is not to be told from the proof: a match on it may answer in Prop alone. *)
inductive nat : Type[0] ≝ O : nat | S : nat → nat.
inductive or (A:Prop) (B:Prop) : Prop ≝ left : A → or A B | right : B → or A B.
definition side : ∀A:Prop.∀B:Prop.or A B → nat ≝
  λA:Prop.λB:Prop.λh:or A B.match h return λ_:or A B.nat with [ left a ⇒ O | right b ⇒ S O ].
