(* filter calls itself in a branch under no constructor: where no element is kept it would never give one. *)
inductive bool : Type[0] ≝ true : bool | false : bool.
coinductive stream : Type[0] ≝ follow : bool → stream → stream.
definition head : stream → bool ≝ λs:stream.match s return λ_:stream.bool with [ follow x rest ⇒ x ].
definition tail : stream → stream ≝ λs:stream.match s return λ_:stream.stream with [ follow x rest ⇒ rest ].
let corec filter (s:stream) : stream ≝
  match head s return λ_:bool.stream with [ true ⇒ follow true (filter (tail s)) | false ⇒ filter (tail s) ].
