(* Inductive types. A type is declared by its constructors: these, and nothing else, make its members. *)

(* The naturals: O is one, and S makes one of each. *)
inductive nat : Type[0] ≝ O : nat | S : nat → nat.

(* A parameter stands before the colon, and is the same throughout: lists of members of A. *)
inductive list (A:Type[0]) : Type[0] ≝ nil : list A | cons : A → list A → list A.

(* An index stands after the colon, and may differ from constructor to constructor: lists by their length. *)
inductive vector (A:Type[0]) : nat → Type[0] ≝ none : vector A O | put : ∀n:nat.A → vector A n → vector A (S n).

(* Equality is an inductive statement with one index: the one proof is that x equals x. *)
inductive eq (A:Type[0]) (x:A) : A → Prop ≝ refl : eq A x x.

(* So are the connectives. *)
inductive and (A:Prop) (B:Prop) : Prop ≝ both : A → B → and A B.
inductive exists (A:Type[0]) (P:A → Prop) : Prop ≝ witness : ∀x:A.P x → exists A P.

(* An argument of a constructor may be a function into the type itself: a tree with B x branches at each node. *)
inductive tree (A:Type[0]) (B:A → Type[0]) : Type[0] ≝ node : ∀x:A.(B x → tree A B) → tree A B.

(* A type may have no constructor. *)
inductive false : Prop ≝.

(* Constructors are functions. Their parameters are written too. *)
definition one : nat ≝ S O.
definition ones : list nat ≝ cons nat one (cons nat one (nil nat)).
definition pair : vector nat (S one) ≝ put nat one one (put nat O one (none nat)).

(* A match looks which constructor made a term. After return stands what the match answers: a function of the
   indices and of the matched term into a type. Each arm names a constructor and its arguments without the
   parameters, and all constructors stand there in their order. *)
definition first : ∀n:nat.vector nat (S n) → nat ≝
  λn:nat.λv:vector nat (S n).
    match v return λk:nat.λ_:vector nat k.nat with [ none ⇒ O | put k x rest ⇒ x ].
definition root : ∀A:Type[0].∀B:A → Type[0].tree A B → A ≝
  λA:Type[0].λB:A → Type[0].λt:tree A B.match t return λ_:tree A B.A with [ node x below ⇒ x ].

(* not A says that a proof of A would prove what has no proof. *)
definition not : Prop → Prop ≝ λA:Prop.A → false.

theorem not_not : ∀A:Prop.A → not (not A).
exact (λA:Prop.λa:A.λh:not A.h a).
qed.

theorem and_commutes : ∀A:Prop.∀B:Prop.and A B → and B A.
exact (λA:Prop.λB:Prop.λh:and A B.match h return λ_:and A B.and B A with [ both a b ⇒ both B A b a ]).
qed.

(* By a match on h : eq A x y the answer is had for y, when it is had for x: in the arm z is x. *)
theorem eq_commutes : ∀A:Type[0].∀x:A.∀y:A.eq A x y → eq A y x.
exact (λA:Type[0].λx:A.λy:A.λh:eq A x y.
  match h return λz:A.λ_:eq A x z.eq A z x with [ refl ⇒ refl A x ]).
qed.

theorem some_number : exists nat (λn:nat.eq nat n one).
exact (witness nat (λn:nat.eq nat n one) (S O) (refl nat one)).
qed.

(* A match may also answer with a statement. By this one zero and one can be told apart. *)
definition is_zero : nat → Prop ≝
  λn:nat.match n return λ_:nat.Prop with [ O ⇒ eq nat O O | S p ⇒ false ].
theorem zero_is_not_one : not (eq nat O one).
exact (λh:eq nat O one.match h return λk:nat.λ_:eq nat O k.is_zero k with [ refl ⇒ refl nat O ]).
qed.
