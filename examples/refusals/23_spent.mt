(* Each function does twice what the one before does: to see that f17 o is o takes more than 131,000 unfoldings. *)
axiom N : Prop.
axiom o : N.
axiom P : N → Prop.
definition f0 : N → N ≝ λx:N.x.
definition f1 : N → N ≝ λx:N.f0 (f0 x).
definition f2 : N → N ≝ λx:N.f1 (f1 x).
definition f3 : N → N ≝ λx:N.f2 (f2 x).
definition f4 : N → N ≝ λx:N.f3 (f3 x).
definition f5 : N → N ≝ λx:N.f4 (f4 x).
definition f6 : N → N ≝ λx:N.f5 (f5 x).
definition f7 : N → N ≝ λx:N.f6 (f6 x).
definition f8 : N → N ≝ λx:N.f7 (f7 x).
definition f9 : N → N ≝ λx:N.f8 (f8 x).
definition f10 : N → N ≝ λx:N.f9 (f9 x).
definition f11 : N → N ≝ λx:N.f10 (f10 x).
definition f12 : N → N ≝ λx:N.f11 (f11 x).
definition f13 : N → N ≝ λx:N.f12 (f12 x).
definition f14 : N → N ≝ λx:N.f13 (f13 x).
definition f15 : N → N ≝ λx:N.f14 (f14 x).
definition f16 : N → N ≝ λx:N.f15 (f15 x).
definition f17 : N → N ≝ λx:N.f16 (f16 x).
axiom p : P (f17 o).
definition q : P o ≝ p.
