(* Coinductive types. Their members may go on without end, as a stream of naturals does. *)
inductive nat : Type[0] ≝ O : nat | S : nat → nat.
inductive eq (A:Type[0]) (x:A) : A → Prop ≝ refl : eq A x x.
coinductive stream : Type[0] ≝ follow : nat → stream → stream.

(* A corecursive function may call itself as an argument of a constructor: this rule, its guard, is there so that
   each part of the answer comes after finitely many steps. It is unfolded only where a match looks at it. *)
let corec zeros : stream ≝ follow O zeros.
let corec from (n:nat) : stream ≝ follow n (from (S n)).

definition head : stream → nat ≝
  λs:stream.match s return λ_:stream.nat with [ follow x rest ⇒ x ].
definition tail : stream → stream ≝
  λs:stream.match s return λ_:stream.stream with [ follow x rest ⇒ rest ].

definition two : nat ≝ S (S O).
theorem third_of_stream : eq nat (head (tail (tail (from O)))) two.
exact (refl nat two).
qed.

(* Under no constructor, a match on what does not call the function may stand. *)
let corec map (f:nat → nat) (s:stream) : stream ≝ follow (f (head s)) (map f (tail s)).
let corec after (n:nat) (s:stream) : stream ≝
  match n return λ_:nat.stream with [ O ⇒ s | S p ⇒ follow p (after p s) ].

(* A statement may be coinductive too: two streams agree where their heads are equal and their tails agree.
   Its proofs are corecursive functions. *)
coinductive agree : stream → stream → Prop ≝
  step : ∀s:stream.∀t:stream.eq nat (head s) (head t) → agree (tail s) (tail t) → agree s t.
let corec agree_with_itself (s:stream) : agree s s ≝
  step s s (refl nat (head s)) (agree_with_itself (tail s)).
let corec agree_back (s:stream) (t:stream) (h:agree s t) : agree t s ≝
  match h return λx:stream.λy:stream.λ_:agree x y.agree y x with
  [ step x y e rest ⇒
      step y x
        (match e return λn:nat.λ_:eq nat (head x) n.eq nat n (head x) with [ refl ⇒ refl nat (head x) ])
        (agree_back (tail x) (tail y) rest) ].

(* The stream of successors of zeros agrees with the stream of ones. *)
let corec ones : stream ≝ follow (S O) ones.
let corec successors_of_zeros : agree (map S zeros) ones ≝
  step (map S zeros) ones (refl nat (S O)) successors_of_zeros.
