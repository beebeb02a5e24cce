(* The dot that ends the unit is missing. *)
axiom a : Prop
