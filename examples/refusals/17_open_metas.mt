(* qed stands where the goal is still open. *)
axiom A : Prop.
theorem identity : A → A.
qed.
