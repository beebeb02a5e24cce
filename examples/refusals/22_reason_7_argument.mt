(* refl proves that O equals O, which is not that O equals S O. *)
inductive nat : Type[0] ≝ O : nat | S : nat → nat.
inductive eq (A:Type[0]) (x:A) : A → Prop ≝ refl : eq A x x.
theorem wrong : eq nat O (S O).
exact (refl nat O).
