(* Proofs. A theorem states what is to be proved, and opens a proof with one goal. *)
universe constraint small < large.
axiom A : Type[small].
axiom a : A.
definition identity : ∀X:Type[small].X → X ≝ λX:Type[small].λx:X.x.

theorem again : ∀P:A → Prop.P a → P (identity A a).

(* exact gives a term of the goal's type. Here p is a proof of P a, and P (identity A a) is the same statement,
   since identity A a computes to a. *)
exact (λP:A → Prop.λp:P a.p).

(* qed ends the proof. Its term is checked once more as a whole, and the theorem is from now on a definition. *)
qed.

(* A theorem can be used like any other name. *)
axiom Q : A → Prop.
axiom q : Q a.
definition used : Q (identity A a) ≝ again Q q.

(* A script may end inside a proof. Then the state that is printed shows the goal, and the exit status is 1. *)
theorem unfinished : A → Type[large].
