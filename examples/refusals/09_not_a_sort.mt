(* After the colon of an inductive type stand its indices and then a sort, as they stand: small is a definition. *)
definition small : Type[1] ≝ Type[0].
inductive nat : small ≝ O : nat | S : nat → nat.
