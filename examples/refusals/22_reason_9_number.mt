(* The sort above this one would have a number past 4294967295. *)
axiom a : Type[4294967295].
