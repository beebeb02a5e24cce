(* A first script. A script is a list of units, each of which ends in a dot, and stands on those before it.
   A comment stands between these signs; (* comments may hold comments *). *)

(* An axiom names something of a type, and says no more of it. Prop is the type of statements: a is one. *)
axiom a : Prop.

(* A statement is itself a type, the type of its proofs. So this is a proof of a, taken for granted. *)
axiom proof_of_a : a.

(* Types have types too, which are called sorts. Type[0] is the type of small types, Type[1] the type of
   Type[0], and so on, so that nothing is of its own type. A definition gives a name to a term of a type:
   x : T ≝ t. The program looks whether t is of type T before it takes the name. *)
definition small : Type[1] ≝ Type[0].
definition larger : Type[3] ≝ Type[2].

(* A definition counts as the term that it stands for: T is of type Type[0]. *)
axiom T : small.
axiom t : T.
definition same : T ≝ t.
definition again : T ≝ same.

(* A → B is the type of functions from A to B. λx:A.b is the function that takes x of type A to b. *)
definition constant : T → T ≝ λx:T.t.

(* ∀x:A.B is the type of functions whose answer has a type that depends on x; it is also how "for each" is said.
   This function takes a statement and a proof of it, and gives the proof back. *)
definition identity : ∀P:Prop.P → P ≝ λP:Prop.λp:P.p.
definition proof_again : a ≝ identity a proof_of_a.
