; Constraints with times.
(define (domain shifts)
 (:requirements :adl :constraints)
 (:types guard room)
 (:predicates (in ?g - guard ?r - room) (alarm ?r - room) (lit ?r - room))
 (:action walk
  :parameters (?g - guard ?r ?s - room)
  :precondition (and (in ?g ?r) (not (= ?r ?s)))
  :effect (and (not (in ?g ?r)) (in ?g ?s)))
 (:action light :parameters (?r - room) :precondition (exists (?g - guard) (in ?g ?r)) :effect (lit ?r))
 (:action dark :parameters (?r - room) :precondition (lit ?r) :effect (not (lit ?r)))
 (:action ring :parameters (?r - room) :effect (alarm ?r))
 (:action quiet :parameters (?r - room) :precondition (exists (?g - guard) (in ?g ?r)) :effect (not (alarm ?r))))
