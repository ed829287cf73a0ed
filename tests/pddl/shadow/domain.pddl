; Quantifiers take variables that are in scope already, and conditions of effects have quantifiers of their own.
(define (domain shadow)
 (:requirements :adl :fluents)
 (:types room)
 (:predicates (door ?x ?y - room) (in ?x - room) (marked ?x - room) (all))
 (:functions (visits ?x - room))
 (:action go
  :parameters (?x ?y - room)
  :precondition (and (in ?x) (door ?x ?y) (exists (?x - room) (and (door ?y ?x) (not (= ?x ?y)))))
  :effect (and (not (in ?x)) (in ?y)
   (increase (visits ?y) 1)
   (forall (?y - room) (when (exists (?x - room) (and (door ?x ?y) (marked ?x))) (increase (visits ?y) 10)))
   (forall (?x - room) (when (forall (?y - room) (imply (door ?x ?y) (marked ?y))) (marked ?x)))))
 (:action count
  :effect (and (forall (?x - room) (increase (visits ?x) 1))
   (forall (?y - room) (when (exists (?x - room) (and (door ?x ?y) (marked ?x))) (increase (visits ?y) 10)))))
 (:action mark :parameters (?x - room) :precondition (in ?x) :effect (marked ?x))
 (:action look
  :precondition (forall (?x ?y - room) (imply (and (door ?x ?y) (in ?x)) (exists (?x - room) (and (marked ?x) (door ?y ?x)))))
  :effect (all)))
