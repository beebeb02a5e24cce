(* The colon between the name and its type is missing. *)
axiom a Prop.
