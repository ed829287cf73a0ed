; Constraints of the domain: the sky is never seen from a crater, and the battery is filled at most once.
(define (domain rover)
 (:requirements :strips :typing :negative-preconditions :constraints)
 (:types place)
 (:predicates (at ?p - place) (way ?p ?q - place) (crater ?p - place) (seen ?p - place) (sent) (charging) (tired))
 (:constraints (and (always (forall (?p - place) (imply (crater ?p) (not (seen ?p))))) (at-most-once (charging))))
 (:action drive
  :parameters (?p ?q - place)
  :precondition (and (at ?p) (way ?p ?q) (not (charging)) (not (tired)))
  :effect (and (not (at ?p)) (at ?q) (tired)))
 (:action look
  :parameters (?p - place)
  :precondition (and (at ?p) (not (charging)))
  :effect (seen ?p))
 (:action send :precondition (not (charging)) :effect (sent))
 (:action plug :precondition (not (charging)) :effect (charging))
 (:action rest :precondition (charging) :effect (not (tired)))
 (:action unplug :precondition (charging) :effect (not (charging))))
