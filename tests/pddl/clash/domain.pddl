; A fact that is deleted and added is there; a place that is set to two values blocks the action, and so does one without a
; value.
(define (domain clash)
 (:requirements :adl :fluents)
 (:types thing)
 (:predicates (p ?x - thing) (q ?x - thing) (end))
 (:functions (f ?x - thing) (g ?x - thing))
 (:action swap
  :parameters (?x ?y - thing)
  :precondition (p ?x)
  :effect (and (p ?y) (not (p ?x)) (q ?x)))
 (:action set-both
  :parameters (?x ?y - thing)
  :precondition (q ?x)
  :effect (and (assign (f ?x) 1) (assign (f ?y) 2)))
 (:action set-same
  :parameters (?x ?y - thing)
  :precondition (not (q ?x))
  :effect (and (assign (f ?x) 1) (assign (f ?y) 1)))
 (:action read
  :parameters (?x - thing)
  :effect (and (assign (g ?x) (+ (f ?x) (f ?x))) (when (q ?x) (end)))))
