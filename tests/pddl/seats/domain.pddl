; Equality, constants in actions, `imply` and `or` in preconditions, facts without arguments, no types.
(define (domain seats)
 (:requirements :strips :equality :disjunctive-preconditions :negative-preconditions :existential-preconditions)
 (:constants king throne)
 (:predicates (sits ?x ?s) (person ?x) (seat ?s) (bowed ?x) (music))
 (:action sit
  :parameters (?x ?s)
  :precondition (and (person ?x) (seat ?s) (not (exists (?y) (sits ?y ?s))) (not (exists (?t) (sits ?x ?t)))
   (imply (= ?s throne) (= ?x king)) (or (= ?x king) (sits king throne) (music)))
  :effect (sits ?x ?s))
 (:action rise
  :parameters (?x ?s)
  :precondition (sits ?x ?s)
  :effect (not (sits ?x ?s)))
 (:action bow
  :parameters (?x)
  :precondition (and (person ?x) (sits king throne) (not (= ?x king)) (not (exists (?s) (sits ?x ?s))))
  :effect (bowed ?x))
 (:action stay :parameters (?x) :precondition (person ?x))
 (:action wait :effect ())
 (:action play :parameters () :precondition () :effect (music)))
