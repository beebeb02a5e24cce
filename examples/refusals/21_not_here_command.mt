(* An axiom is a command, and no command stands inside a proof. *)
axiom A : Prop.
theorem identity : A → A.
axiom a : A.
