; A recursive derived predicate, and one that uses it.
(define (domain towers)
 (:requirements :adl :typing :derived-predicates)
 (:types block)
 (:predicates (on ?x ?y - block) (table ?x - block) (above ?x ?y - block) (free ?x - block))
 (:derived (free ?x - block) (not (exists (?y - block) (above ?y ?x))))
 (:derived (above ?x ?y - block) (or (on ?x ?y) (exists (?z - block) (and (on ?x ?z) (above ?z ?y)))))
 (:action stack
  :parameters (?x ?y - block)
  :precondition (and (table ?x) (free ?x) (free ?y) (not (= ?x ?y)))
  :effect (and (not (table ?x)) (on ?x ?y)))
 (:action unstack
  :parameters (?x ?y - block)
  :precondition (and (on ?x ?y) (free ?x))
  :effect (and (table ?x) (not (on ?x ?y)))))
