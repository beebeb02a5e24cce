(* % is no sign of the language. *)
axiom a : %.
