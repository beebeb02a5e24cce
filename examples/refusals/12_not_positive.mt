(* A term of lam would hold a function that takes terms of lam. *)
inductive lam : Type[0] ≝ app : lam → lam → lam | abs : (lam → lam) → lam.
