(* Functions that compute. Terms that compute to the same are the same to the program, so many equations
   have the shortest of all proofs: refl. *)
inductive nat : Type[0] ≝ O : nat | S : nat → nat.
inductive eq (A:Type[0]) (x:A) : A → Prop ≝ refl : eq A x x.

(* A recursive function names after `on` the argument on which it recurs. It may call itself on what a match on
   that argument takes out of it, as on p here: this rule, the guard, is there so that no call goes on without end. *)
let rec plus (n:nat) (m:nat) on n : nat ≝
  match n return λ_:nat.nat with [ O ⇒ m | S p ⇒ S (plus p m) ].
let rec times (n:nat) (m:nat) on n : nat ≝
  match n return λ_:nat.nat with [ O ⇒ O | S p ⇒ plus m (times p m) ].

definition two : nat ≝ S (S O).
definition three : nat ≝ S two.
definition six : nat ≝ S (S (S three)).

theorem sum : eq nat (plus two (plus two two)) six.
exact (refl nat six).
qed.

theorem product : eq nat (times two three) six.
exact (refl nat six).
qed.

inductive list (A:Type[0]) : Type[0] ≝ nil : list A | cons : A → list A → list A.
let rec append (A:Type[0]) (k:list A) (l:list A) on k : list A ≝
  match k return λ_:list A.list A with [ nil ⇒ l | cons x rest ⇒ cons A x (append A rest l) ].
let rec length (A:Type[0]) (l:list A) on l : nat ≝
  match l return λ_:list A.nat with [ nil ⇒ O | cons x rest ⇒ S (length A rest) ].

definition twos : list nat ≝ cons nat two (cons nat two (cons nat two (nil nat))).

theorem length_of_two_lists : eq nat (length nat (append nat twos twos)) six.
exact (refl nat six).
qed.

theorem two_lists : eq (list nat) (append nat (cons nat two (nil nat)) (cons nat two (cons nat two (nil nat)))) twos.
exact (refl (list nat) twos).
qed.

(* A recursive function into a statement is a proof by induction: what holds of O, and of S n where it holds of n,
   holds of every natural. *)
let rec nat_induction (P:nat → Prop) (base:P O) (step:∀n:nat.P n → P (S n)) (n:nat) on n : P n ≝
  match n return λk:nat.P k with [ O ⇒ base | S p ⇒ step p (nat_induction P base step p) ].
