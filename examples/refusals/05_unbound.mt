(* Nothing is called nat yet. *)
axiom zero : nat.
