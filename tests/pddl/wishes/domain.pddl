; Goals of all kinds.
(define (domain wishes)
 (:requirements :adl :fluents)
 (:predicates (on ?x) (red ?x))
 (:functions (count))
 (:action press :parameters (?x) :precondition (not (on ?x)) :effect (and (on ?x) (increase (count) 1)))
 (:action off :parameters (?x) :precondition (or (on ?x) (and (red ?x) (on ?x))) :effect (and (not (on ?x)) (decrease (count) 1)))
 (:action paint :parameters (?x) :precondition (not (on ?x)) :effect (red ?x)))
