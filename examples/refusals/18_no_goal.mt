(* The goal was closed by the first exact, and there is no other. *)
axiom A : Prop.
theorem identity : A → A.
exact (λa:A.a).
exact (λa:A.a).
