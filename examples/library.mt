(* A small library: logic, equality, naturals and lists, with each fact proved by an explicit term.
   It is meant to be read beside `data.mt` and `computing.mt`, which explain the declarations. *)

(* ---- Logic ---- *)

inductive True : Prop ≝ I : True.

(* What is false implies everything. This is a definition, and no inductive type without constructors: a match
   with no arm is not taken yet. *)
definition False : Prop ≝ ∀P:Prop.P.
definition not : Prop → Prop ≝ λA:Prop.A → False.

inductive and (A:Prop) (B:Prop) : Prop ≝ both : A → B → and A B.
inductive or (A:Prop) (B:Prop) : Prop ≝ left : A → or A B | right : B → or A B.
definition iff : Prop → Prop → Prop ≝ λA:Prop.λB:Prop.and (A → B) (B → A).
inductive exists (A:Type[0]) (P:A → Prop) : Prop ≝ witness : ∀x:A.P x → exists A P.

(* A proof of A → B is a function: it takes a proof of A, and gives one of B. *)
theorem identity : ∀A:Prop.A → A.
exact (λA:Prop.λa:A.a).
qed.

theorem first_of_two : ∀A:Prop.∀B:Prop.A → B → A.
exact (λA:Prop.λB:Prop.λa:A.λb:B.a).
qed.

theorem compose : ∀A:Prop.∀B:Prop.∀C:Prop.(A → B) → (B → C) → A → C.
exact (λA:Prop.λB:Prop.λC:Prop.λf:A → B.λg:B → C.λa:A.g (f a)).
qed.

theorem exchange : ∀A:Prop.∀B:Prop.∀C:Prop.(A → B → C) → B → A → C.
exact (λA:Prop.λB:Prop.λC:Prop.λf:A → B → C.λb:B.λa:A.f a b).
qed.

(* False is a function that takes a statement, and gives a proof of it. *)
theorem from_false : ∀A:Prop.False → A.
exact (λA:Prop.λf:False.f A).
qed.

theorem not_not_intro : ∀A:Prop.A → not (not A).
exact (λA:Prop.λa:A.λn:not A.n a).
qed.

theorem contrapositive : ∀A:Prop.∀B:Prop.(A → B) → not B → not A.
exact (λA:Prop.λB:Prop.λf:A → B.λn:not B.λa:A.n (f a)).
qed.

(* A fact may be used in the next ones. *)
theorem three_nots : ∀A:Prop.not (not (not A)) → not A.
exact (λA:Prop.contrapositive A (not (not A)) (not_not_intro A)).
qed.

theorem no_contradiction : ∀A:Prop.not (and A (not A)).
exact (λA:Prop.λh:and A (not A).match h return λ_:and A (not A).False with [ both a n ⇒ n a ]).
qed.

theorem and_first : ∀A:Prop.∀B:Prop.and A B → A.
exact (λA:Prop.λB:Prop.λh:and A B.match h return λ_:and A B.A with [ both a b ⇒ a ]).
qed.

theorem and_second : ∀A:Prop.∀B:Prop.and A B → B.
exact (λA:Prop.λB:Prop.λh:and A B.match h return λ_:and A B.B with [ both a b ⇒ b ]).
qed.

theorem and_commutes : ∀A:Prop.∀B:Prop.and A B → and B A.
exact (λA:Prop.λB:Prop.λh:and A B.both B A (and_second A B h) (and_first A B h)).
qed.

theorem and_associates : ∀A:Prop.∀B:Prop.∀C:Prop.and (and A B) C → and A (and B C).
exact (λA:Prop.λB:Prop.λC:Prop.λh:and (and A B) C.
  match h return λ_:and (and A B) C.and A (and B C) with
  [ both ab c ⇒ match ab return λ_:and A B.and A (and B C) with
      [ both a b ⇒ both A (and B C) a (both B C b c) ] ]).
qed.

theorem curry : ∀A:Prop.∀B:Prop.∀C:Prop.(and A B → C) → A → B → C.
exact (λA:Prop.λB:Prop.λC:Prop.λf:and A B → C.λa:A.λb:B.f (both A B a b)).
qed.

theorem uncurry : ∀A:Prop.∀B:Prop.∀C:Prop.(A → B → C) → and A B → C.
exact (λA:Prop.λB:Prop.λC:Prop.λf:A → B → C.λh:and A B.f (and_first A B h) (and_second A B h)).
qed.

theorem or_elimination : ∀A:Prop.∀B:Prop.∀C:Prop.(A → C) → (B → C) → or A B → C.
exact (λA:Prop.λB:Prop.λC:Prop.λf:A → C.λg:B → C.λh:or A B.
  match h return λ_:or A B.C with [ left a ⇒ f a | right b ⇒ g b ]).
qed.

theorem or_commutes : ∀A:Prop.∀B:Prop.or A B → or B A.
exact (λA:Prop.λB:Prop.or_elimination A B (or B A) (right B A) (left B A)).
qed.

theorem and_distributes : ∀A:Prop.∀B:Prop.∀C:Prop.and A (or B C) → or (and A B) (and A C).
exact (λA:Prop.λB:Prop.λC:Prop.λh:and A (or B C).
  match h return λ_:and A (or B C).or (and A B) (and A C) with
  [ both a bc ⇒ match bc return λ_:or B C.or (and A B) (and A C) with
      [ left b ⇒ left (and A B) (and A C) (both A B a b)
      | right c ⇒ right (and A B) (and A C) (both A C a c) ] ]).
qed.

theorem not_or : ∀A:Prop.∀B:Prop.not (or A B) → and (not A) (not B).
exact (λA:Prop.λB:Prop.λn:not (or A B).
  both (not A) (not B) (λa:A.n (left A B a)) (λb:B.n (right A B b))).
qed.

theorem not_either : ∀A:Prop.∀B:Prop.and (not A) (not B) → not (or A B).
exact (λA:Prop.λB:Prop.λh:and (not A) (not B).
  or_elimination A B False (and_first (not A) (not B) h) (and_second (not A) (not B) h)).
qed.

(* That each statement is true or false is not proved here; that this cannot be refuted for any statement is. *)
theorem middle_is_not_excluded : ∀A:Prop.not (not (or A (not A))).
exact (λA:Prop.λn:not (or A (not A)).n (right A (not A) (λa:A.n (left A (not A) a)))).
qed.

theorem iff_refl : ∀A:Prop.iff A A.
exact (λA:Prop.both (A → A) (A → A) (identity A) (identity A)).
qed.

theorem iff_sym : ∀A:Prop.∀B:Prop.iff A B → iff B A.
exact (λA:Prop.λB:Prop.and_commutes (A → B) (B → A)).
qed.

theorem iff_trans : ∀A:Prop.∀B:Prop.∀C:Prop.iff A B → iff B C → iff A C.
exact (λA:Prop.λB:Prop.λC:Prop.λh:iff A B.λk:iff B C.
  both (A → C) (C → A)
    (compose A B C (and_first (A → B) (B → A) h) (and_first (B → C) (C → B) k))
    (compose C B A (and_second (B → C) (C → B) k) (and_second (A → B) (B → A) h))).
qed.

theorem not_or_iff : ∀A:Prop.∀B:Prop.iff (not (or A B)) (and (not A) (not B)).
exact (λA:Prop.λB:Prop.
  both (not (or A B) → and (not A) (not B)) (and (not A) (not B) → not (or A B)) (not_or A B) (not_either A B)).
qed.

theorem exists_under : ∀A:Type[0].∀P:A → Prop.∀Q:A → Prop.(∀x:A.P x → Q x) → exists A P → exists A Q.
exact (λA:Type[0].λP:A → Prop.λQ:A → Prop.λf:∀x:A.P x → Q x.λh:exists A P.
  match h return λ_:exists A P.exists A Q with [ witness x p ⇒ witness A Q x (f x p) ]).
qed.

theorem not_exists : ∀A:Type[0].∀P:A → Prop.not (exists A P) → ∀x:A.not (P x).
exact (λA:Type[0].λP:A → Prop.λn:not (exists A P).λx:A.λp:P x.n (witness A P x p)).
qed.

(* ---- Equality ---- *)

inductive eq (A:Type[0]) (x:A) : A → Prop ≝ refl : eq A x x.

theorem eq_sym : ∀A:Type[0].∀x:A.∀y:A.eq A x y → eq A y x.
exact (λA:Type[0].λx:A.λy:A.λh:eq A x y.
  match h return λz:A.λ_:eq A x z.eq A z x with [ refl ⇒ refl A x ]).
qed.

theorem eq_trans : ∀A:Type[0].∀x:A.∀y:A.∀z:A.eq A x y → eq A y z → eq A x z.
exact (λA:Type[0].λx:A.λy:A.λz:A.λh:eq A x y.λk:eq A y z.
  match k return λw:A.λ_:eq A y w.eq A x w with [ refl ⇒ h ]).
qed.

theorem eq_under : ∀A:Type[0].∀B:Type[0].∀f:A → B.∀x:A.∀y:A.eq A x y → eq B (f x) (f y).
exact (λA:Type[0].λB:Type[0].λf:A → B.λx:A.λy:A.λh:eq A x y.
  match h return λz:A.λ_:eq A x z.eq B (f x) (f z) with [ refl ⇒ refl B (f x) ]).
qed.

(* Leibniz' law: what holds of x holds of what equals x. *)
theorem eq_rewrite : ∀A:Type[0].∀P:A → Prop.∀x:A.∀y:A.eq A x y → P x → P y.
exact (λA:Type[0].λP:A → Prop.λx:A.λy:A.λh:eq A x y.λp:P x.
  match h return λz:A.λ_:eq A x z.P z with [ refl ⇒ p ]).
qed.

theorem eq_from_rewrites : ∀A:Type[0].∀x:A.∀y:A.(∀P:A → Prop.P x → P y) → eq A x y.
exact (λA:Type[0].λx:A.λy:A.λh:∀P:A → Prop.P x → P y.h (λz:A.eq A x z) (refl A x)).
qed.

(* ---- Naturals ---- *)

inductive nat : Type[0] ≝ O : nat | S : nat → nat.

let rec nat_induction (P:nat → Prop) (base:P O) (step:∀n:nat.P n → P (S n)) (n:nat) on n : P n ≝
  match n return λk:nat.P k with [ O ⇒ base | S p ⇒ step p (nat_induction P base step p) ].

definition is_zero : nat → Prop ≝ λn:nat.match n return λ_:nat.Prop with [ O ⇒ True | S p ⇒ False ].
definition predecessor : nat → nat ≝ λn:nat.match n return λ_:nat.nat with [ O ⇒ O | S p ⇒ p ].

(* If O were S n, then is_zero O, which is True, would be is_zero (S n), which is False. *)
theorem zero_is_no_successor : ∀n:nat.not (eq nat O (S n)).
exact (λn:nat.λh:eq nat O (S n).eq_rewrite nat is_zero O (S n) h I).
qed.

theorem successor_is_injective : ∀n:nat.∀m:nat.eq nat (S n) (S m) → eq nat n m.
exact (λn:nat.λm:nat.eq_under nat nat predecessor (S n) (S m)).
qed.

theorem no_number_is_its_successor : ∀n:nat.not (eq nat n (S n)).
exact (nat_induction (λn:nat.not (eq nat n (S n)))
  (zero_is_no_successor O)
  (λn:nat.λih:not (eq nat n (S n)).λh:eq nat (S n) (S (S n)).ih (successor_is_injective n (S n) h))).
qed.

theorem zero_or_successor : ∀n:nat.or (eq nat n O) (exists nat (λp:nat.eq nat n (S p))).
exact (λn:nat.match n return λk:nat.or (eq nat k O) (exists nat (λp:nat.eq nat k (S p))) with
  [ O ⇒ left (eq nat O O) (exists nat (λp:nat.eq nat O (S p))) (refl nat O)
  | S q ⇒ right (eq nat (S q) O) (exists nat (λp:nat.eq nat (S q) (S p)))
      (witness nat (λp:nat.eq nat (S q) (S p)) q (refl nat (S q))) ]).
qed.

(* Addition recurs on its first argument. So plus O m computes to m; that plus n O equals n needs induction. *)
let rec plus (n:nat) (m:nat) on n : nat ≝
  match n return λ_:nat.nat with [ O ⇒ m | S p ⇒ S (plus p m) ].

theorem plus_zero : ∀n:nat.eq nat (plus n O) n.
exact (nat_induction (λn:nat.eq nat (plus n O) n)
  (refl nat O)
  (λn:nat.eq_under nat nat S (plus n O) n)).
qed.

theorem plus_successor : ∀n:nat.∀m:nat.eq nat (plus n (S m)) (S (plus n m)).
exact (λn:nat.λm:nat.nat_induction (λk:nat.eq nat (plus k (S m)) (S (plus k m)))
  (refl nat (S m))
  (λk:nat.eq_under nat nat S (plus k (S m)) (S (plus k m)))
  n).
qed.

theorem plus_commutes : ∀n:nat.∀m:nat.eq nat (plus n m) (plus m n).
exact (λn:nat.λm:nat.nat_induction (λk:nat.eq nat (plus k m) (plus m k))
  (eq_sym nat (plus m O) m (plus_zero m))
  (λk:nat.λih:eq nat (plus k m) (plus m k).
    eq_trans nat (S (plus k m)) (S (plus m k)) (plus m (S k))
      (eq_under nat nat S (plus k m) (plus m k) ih)
      (eq_sym nat (plus m (S k)) (S (plus m k)) (plus_successor m k)))
  n).
qed.

theorem plus_associates : ∀n:nat.∀m:nat.∀k:nat.eq nat (plus (plus n m) k) (plus n (plus m k)).
exact (λn:nat.λm:nat.λk:nat.nat_induction (λi:nat.eq nat (plus (plus i m) k) (plus i (plus m k)))
  (refl nat (plus m k))
  (λi:nat.eq_under nat nat S (plus (plus i m) k) (plus i (plus m k)))
  n).
qed.

theorem plus_exchange : ∀n:nat.∀m:nat.∀k:nat.eq nat (plus n (plus m k)) (plus m (plus n k)).
exact (λn:nat.λm:nat.λk:nat.
  eq_trans nat (plus n (plus m k)) (plus (plus n m) k) (plus m (plus n k))
    (eq_sym nat (plus (plus n m) k) (plus n (plus m k)) (plus_associates n m k))
    (eq_trans nat (plus (plus n m) k) (plus (plus m n) k) (plus m (plus n k))
      (eq_under nat nat (λx:nat.plus x k) (plus n m) (plus m n) (plus_commutes n m))
      (plus_associates m n k))).
qed.

theorem plus_cancels : ∀n:nat.∀m:nat.∀k:nat.eq nat (plus n m) (plus n k) → eq nat m k.
exact (λn:nat.λm:nat.λk:nat.nat_induction (λi:nat.eq nat (plus i m) (plus i k) → eq nat m k)
  (λh:eq nat m k.h)
  (λi:nat.λih:eq nat (plus i m) (plus i k) → eq nat m k.λh:eq nat (S (plus i m)) (S (plus i k)).
    ih (successor_is_injective (plus i m) (plus i k) h))
  n).
qed.

let rec times (n:nat) (m:nat) on n : nat ≝
  match n return λ_:nat.nat with [ O ⇒ O | S p ⇒ plus m (times p m) ].

theorem times_zero : ∀n:nat.eq nat (times n O) O.
exact (nat_induction (λn:nat.eq nat (times n O) O) (refl nat O) (λn:nat.λih:eq nat (times n O) O.ih)).
qed.

theorem one_times : ∀n:nat.eq nat (times (S O) n) n.
exact plus_zero.
qed.

theorem times_successor : ∀n:nat.∀m:nat.eq nat (times n (S m)) (plus n (times n m)).
exact (λn:nat.λm:nat.nat_induction (λk:nat.eq nat (times k (S m)) (plus k (times k m)))
  (refl nat O)
  (λk:nat.λih:eq nat (times k (S m)) (plus k (times k m)).
    eq_under nat nat S (plus m (times k (S m))) (plus k (plus m (times k m)))
      (eq_trans nat (plus m (times k (S m))) (plus m (plus k (times k m))) (plus k (plus m (times k m)))
        (eq_under nat nat (plus m) (times k (S m)) (plus k (times k m)) ih)
        (plus_exchange m k (times k m))))
  n).
qed.

theorem times_commutes : ∀n:nat.∀m:nat.eq nat (times n m) (times m n).
exact (λn:nat.λm:nat.nat_induction (λk:nat.eq nat (times k m) (times m k))
  (eq_sym nat (times m O) O (times_zero m))
  (λk:nat.λih:eq nat (times k m) (times m k).
    eq_trans nat (plus m (times k m)) (plus m (times m k)) (times m (S k))
      (eq_under nat nat (plus m) (times k m) (times m k) ih)
      (eq_sym nat (times m (S k)) (plus m (times m k)) (times_successor m k)))
  n).
qed.

theorem times_distributes : ∀n:nat.∀m:nat.∀k:nat.eq nat (times (plus n m) k) (plus (times n k) (times m k)).
exact (λn:nat.λm:nat.λk:nat.nat_induction (λi:nat.eq nat (times (plus i m) k) (plus (times i k) (times m k)))
  (refl nat (times m k))
  (λi:nat.λih:eq nat (times (plus i m) k) (plus (times i k) (times m k)).
    eq_trans nat (plus k (times (plus i m) k)) (plus k (plus (times i k) (times m k))) (plus (plus k (times i k)) (times m k))
      (eq_under nat nat (plus k) (times (plus i m) k) (plus (times i k) (times m k)) ih)
      (eq_sym nat (plus (plus k (times i k)) (times m k)) (plus k (plus (times i k) (times m k)))
        (plus_associates k (times i k) (times m k))))
  n).
qed.

theorem times_associates : ∀n:nat.∀m:nat.∀k:nat.eq nat (times (times n m) k) (times n (times m k)).
exact (λn:nat.λm:nat.λk:nat.nat_induction (λi:nat.eq nat (times (times i m) k) (times i (times m k)))
  (refl nat O)
  (λi:nat.λih:eq nat (times (times i m) k) (times i (times m k)).
    eq_trans nat (times (plus m (times i m)) k) (plus (times m k) (times (times i m) k)) (plus (times m k) (times i (times m k)))
      (times_distributes m (times i m) k)
      (eq_under nat nat (plus (times m k)) (times (times i m) k) (times i (times m k)) ih))
  n).
qed.

(* n is at most m: a statement with an index, and so with an induction of its own. *)
inductive le (n:nat) : nat → Prop ≝ le_same : le n n | le_next : ∀m:nat.le n m → le n (S m).

let rec le_induction (n:nat) (P:nat → Prop) (base:P n) (step:∀m:nat.le n m → P m → P (S m)) (m:nat) (h:le n m) on h : P m ≝
  match h return λk:nat.λ_:le n k.P k with
  [ le_same ⇒ base | le_next k p ⇒ step k p (le_induction n P base step k p) ].

theorem zero_is_least : ∀n:nat.le O n.
exact (nat_induction (λn:nat.le O n) (le_same O) (le_next O)).
qed.

theorem le_trans : ∀n:nat.∀m:nat.∀k:nat.le n m → le m k → le n k.
exact (λn:nat.λm:nat.λk:nat.λh:le n m.le_induction m (λj:nat.le n j) h (λj:nat.λ_:le m j.le_next n j) k).
qed.

theorem le_successors : ∀n:nat.∀m:nat.le n m → le (S n) (S m).
exact (λn:nat.le_induction n (λm:nat.le (S n) (S m)) (le_same (S n)) (λm:nat.λ_:le n m.le_next (S n) (S m))).
qed.

theorem le_plus : ∀n:nat.∀k:nat.le n (plus k n).
exact (λn:nat.nat_induction (λk:nat.le n (plus k n)) (le_same n) (λk:nat.le_next n (plus k n))).
qed.

(* ---- Lists ---- *)

inductive list (A:Type[0]) : Type[0] ≝ nil : list A | cons : A → list A → list A.

let rec list_induction (A:Type[0]) (P:list A → Prop) (base:P (nil A)) (step:∀x:A.∀l:list A.P l → P (cons A x l)) (l:list A) on l : P l ≝
  match l return λk:list A.P k with [ nil ⇒ base | cons x k ⇒ step x k (list_induction A P base step k) ].

let rec append (A:Type[0]) (k:list A) (l:list A) on k : list A ≝
  match k return λ_:list A.list A with [ nil ⇒ l | cons x rest ⇒ cons A x (append A rest l) ].
let rec length (A:Type[0]) (l:list A) on l : nat ≝
  match l return λ_:list A.nat with [ nil ⇒ O | cons x rest ⇒ S (length A rest) ].
let rec map (A:Type[0]) (B:Type[0]) (f:A → B) (l:list A) on l : list B ≝
  match l return λ_:list A.list B with [ nil ⇒ nil B | cons x rest ⇒ cons B (f x) (map A B f rest) ].
let rec reverse (A:Type[0]) (l:list A) on l : list A ≝
  match l return λ_:list A.list A with
  [ nil ⇒ nil A | cons x rest ⇒ append A (reverse A rest) (cons A x (nil A)) ].

theorem append_nil : ∀A:Type[0].∀l:list A.eq (list A) (append A l (nil A)) l.
exact (λA:Type[0].list_induction A (λl:list A.eq (list A) (append A l (nil A)) l)
  (refl (list A) (nil A))
  (λx:A.λl:list A.eq_under (list A) (list A) (cons A x) (append A l (nil A)) l)).
qed.

theorem append_associates : ∀A:Type[0].∀j:list A.∀k:list A.∀l:list A.eq (list A) (append A (append A j k) l) (append A j (append A k l)).
exact (λA:Type[0].λj:list A.λk:list A.λl:list A.
  list_induction A (λi:list A.eq (list A) (append A (append A i k) l) (append A i (append A k l)))
    (refl (list A) (append A k l))
    (λx:A.λi:list A.eq_under (list A) (list A) (cons A x) (append A (append A i k) l) (append A i (append A k l)))
    j).
qed.

theorem length_of_append : ∀A:Type[0].∀k:list A.∀l:list A.eq nat (length A (append A k l)) (plus (length A k) (length A l)).
exact (λA:Type[0].λk:list A.λl:list A.
  list_induction A (λi:list A.eq nat (length A (append A i l)) (plus (length A i) (length A l)))
    (refl nat (length A l))
    (λx:A.λi:list A.eq_under nat nat S (length A (append A i l)) (plus (length A i) (length A l)))
    k).
qed.

theorem length_of_map : ∀A:Type[0].∀B:Type[0].∀f:A → B.∀l:list A.eq nat (length B (map A B f l)) (length A l).
exact (λA:Type[0].λB:Type[0].λf:A → B.
  list_induction A (λl:list A.eq nat (length B (map A B f l)) (length A l))
    (refl nat O)
    (λx:A.λl:list A.eq_under nat nat S (length B (map A B f l)) (length A l))).
qed.

theorem map_of_append : ∀A:Type[0].∀B:Type[0].∀f:A → B.∀k:list A.∀l:list A.
  eq (list B) (map A B f (append A k l)) (append B (map A B f k) (map A B f l)).
exact (λA:Type[0].λB:Type[0].λf:A → B.λk:list A.λl:list A.
  list_induction A (λi:list A.eq (list B) (map A B f (append A i l)) (append B (map A B f i) (map A B f l)))
    (refl (list B) (map A B f l))
    (λx:A.λi:list A.eq_under (list B) (list B) (cons B (f x)) (map A B f (append A i l)) (append B (map A B f i) (map A B f l)))
    k).
qed.

theorem map_of_map : ∀A:Type[0].∀B:Type[0].∀C:Type[0].∀f:A → B.∀g:B → C.∀l:list A.
  eq (list C) (map B C g (map A B f l)) (map A C (λx:A.g (f x)) l).
exact (λA:Type[0].λB:Type[0].λC:Type[0].λf:A → B.λg:B → C.
  list_induction A (λl:list A.eq (list C) (map B C g (map A B f l)) (map A C (λx:A.g (f x)) l))
    (refl (list C) (nil C))
    (λx:A.λl:list A.eq_under (list C) (list C) (cons C (g (f x))) (map B C g (map A B f l)) (map A C (λx:A.g (f x)) l))).
qed.

theorem reverse_of_append : ∀A:Type[0].∀k:list A.∀l:list A.eq (list A) (reverse A (append A k l)) (append A (reverse A l) (reverse A k)).
exact (λA:Type[0].λk:list A.λl:list A.
  list_induction A (λi:list A.eq (list A) (reverse A (append A i l)) (append A (reverse A l) (reverse A i)))
    (eq_sym (list A) (append A (reverse A l) (nil A)) (reverse A l) (append_nil A (reverse A l)))
    (λx:A.λi:list A.λih:eq (list A) (reverse A (append A i l)) (append A (reverse A l) (reverse A i)).
      eq_trans (list A)
        (append A (reverse A (append A i l)) (cons A x (nil A)))
        (append A (append A (reverse A l) (reverse A i)) (cons A x (nil A)))
        (append A (reverse A l) (append A (reverse A i) (cons A x (nil A))))
        (eq_under (list A) (list A) (λj:list A.append A j (cons A x (nil A)))
          (reverse A (append A i l)) (append A (reverse A l) (reverse A i)) ih)
        (append_associates A (reverse A l) (reverse A i) (cons A x (nil A))))
    k).
qed.

theorem reverse_of_reverse : ∀A:Type[0].∀l:list A.eq (list A) (reverse A (reverse A l)) l.
exact (λA:Type[0].list_induction A (λl:list A.eq (list A) (reverse A (reverse A l)) l)
  (refl (list A) (nil A))
  (λx:A.λl:list A.λih:eq (list A) (reverse A (reverse A l)) l.
    eq_trans (list A)
      (reverse A (append A (reverse A l) (cons A x (nil A))))
      (cons A x (reverse A (reverse A l)))
      (cons A x l)
      (reverse_of_append A (reverse A l) (cons A x (nil A)))
      (eq_under (list A) (list A) (cons A x) (reverse A (reverse A l)) l ih))).
qed.

theorem length_of_reverse : ∀A:Type[0].∀l:list A.eq nat (length A (reverse A l)) (length A l).
exact (λA:Type[0].list_induction A (λl:list A.eq nat (length A (reverse A l)) (length A l))
  (refl nat O)
  (λx:A.λl:list A.λih:eq nat (length A (reverse A l)) (length A l).
    eq_trans nat
      (length A (append A (reverse A l) (cons A x (nil A))))
      (plus (length A (reverse A l)) (S O))
      (S (length A l))
      (length_of_append A (reverse A l) (cons A x (nil A)))
      (eq_trans nat (plus (length A (reverse A l)) (S O)) (plus (S O) (length A (reverse A l))) (S (length A l))
        (plus_commutes (length A (reverse A l)) (S O))
        (eq_under nat nat S (length A (reverse A l)) (length A l) ih)))).
qed.

theorem cons_is_injective : ∀A:Type[0].∀x:A.∀y:A.∀k:list A.∀l:list A.eq (list A) (cons A x k) (cons A y l) → eq (list A) k l.
exact (λA:Type[0].λx:A.λy:A.λk:list A.λl:list A.
  eq_under (list A) (list A)
    (λj:list A.match j return λ_:list A.list A with [ nil ⇒ k | cons z rest ⇒ rest ])
    (cons A x k) (cons A y l)).
qed.
