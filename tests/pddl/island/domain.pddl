; No plan: no ferry goes to the island of the goal.
(define (domain island)
 (:requirements :strips :typing)
 (:types port)
 (:predicates (at ?p - port) (ferry ?p ?q - port) (ticket))
 (:action buy :effect (ticket))
 (:action sail :parameters (?p ?q - port) :precondition (and (at ?p) (ferry ?p ?q) (ticket)) :effect (and (not (at ?p)) (at ?q))))
