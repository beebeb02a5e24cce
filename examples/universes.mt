(* Sorts with names. Instead of a number a sort may have a name, and constraints say how names lie. *)
universe constraint low < high.

(* Type[low] is of type Type[high], since low is below high. *)
definition small : Type[high] ≝ Type[low].

(* A sort may be a name and a number, which is so much higher, or the greatest of several. *)
definition next : Type[low+1] ≝ Type[low].
definition greatest : Type[low+3,5] ≝ Type[low].

(* Each sort is also of every higher one. *)
definition number : Type[7] ≝ Type[2].
axiom A : Type[low].
definition A_again : Type[high] ≝ A.

(* The type of all functions from Type[low] into A lies as high as the greatest of its parts. *)
definition functions : Type[low+1] ≝ Type[low] → A.

(* What is said of all statements is a statement again, however large what it speaks of is. *)
definition each_implies_itself : Prop ≝ ∀P:Prop.P → P.
definition all_types : Prop ≝ ∀X:Type[high].∀P:X → Prop.∀x:X.P x → P x.
