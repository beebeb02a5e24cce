(* Type[0] is of type Type[1], and that is not at most Type[0]. *)
definition t : Type[0] ≝ Type[0].
