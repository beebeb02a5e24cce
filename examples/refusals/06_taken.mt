(* A name stands for one thing. *)
axiom a : Prop.
axiom a : Prop.
