(* qed is a step of a proof, and no proof is open. *)
axiom A : Prop.
qed.
