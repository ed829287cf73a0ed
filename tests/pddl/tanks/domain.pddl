; Numbers: assign, increase, decrease, scale-up, comparisons, sums, differences and products.
(define (domain tanks)
 (:requirements :typing :fluents :negative-preconditions)
 (:types tank)
 (:predicates (open ?t - tank))
 (:functions (level ?t - tank) (room ?t - tank) - number (moves) (best))
 (:action fill
  :parameters (?t - tank)
  :precondition (and (open ?t) (< (level ?t) (room ?t)))
  :effect (and (assign (level ?t) (room ?t)) (increase (moves) 1)))
 (:action pour-all
  :parameters (?s ?t - tank)
  :precondition (and (open ?s) (open ?t) (not (= ?s ?t)) (> (level ?s) 0) (<= (+ (level ?s) (level ?t)) (room ?t)))
  :effect (and (increase (level ?t) (level ?s)) (assign (level ?s) 0) (increase (moves) 1)))
 (:action pour-some
  :parameters (?s ?t - tank)
  :precondition (and (open ?s) (open ?t) (not (= ?s ?t)) (> (+ (level ?s) (level ?t)) (room ?t)))
  :effect (and (decrease (level ?s) (- (room ?t) (level ?t))) (assign (level ?t) (room ?t)) (increase (moves) 1)))
 (:action spill
  :parameters (?t - tank)
  :precondition (and (open ?t) (>= (level ?t) 1))
  :effect (and (assign (level ?t) (* 0 (level ?t))) (increase (moves) 1)))
 (:action double
  :parameters (?t - tank)
  :precondition (and (not (open ?t)) (<= (* 2 (level ?t)) (room ?t)))
  :effect (and (scale-up (level ?t) 2) (assign (best) (- (room ?t) (level ?t))))))
