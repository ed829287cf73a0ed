; Derived predicates that use each other in one direction, with two rules of one of them, in conditions of effects,
; preconditions and the goal. The rules stand in no helpful order.
(define (domain circuit)
 (:requirements :adl :typing :derived-predicates)
 (:types node - object lamp plug - node)
 (:predicates (wire ?a ?b - node) (power ?p - plug) (broken ?l - lamp) (warm ?l - lamp) (lit ?l - lamp) (live ?n - node)
  (safe ?n - node))
 (:derived (dark) (forall (?l - lamp) (not (lit ?l))))
 (:derived (lit ?l - lamp) (and (live ?l) (not (broken ?l))))
 (:derived (live ?n - node) (exists (?p - plug) (and (power ?p) (wire ?p ?n))))
 (:derived (live ?m - plug) (power ?m))
 ; Whether a lamp is safe is not said by the second rule.
 (:derived (safe ?n - node) (not (live ?n)))
 (:derived (safe ?m - plug) (dark))
 (:action join
  :parameters (?a ?b - node)
  :precondition (and (not (wire ?a ?b)) (dark))
  :effect (wire ?a ?b))
 (:action switch
  :parameters (?p - plug)
  :precondition (not (live ?p))
  :effect (power ?p))
 (:action wait
  :effect (forall (?l - lamp) (when (lit ?l) (warm ?l))))
 (:action mend
  :parameters (?l - lamp)
  :precondition (and (broken ?l) (dark))
  :effect (not (broken ?l))))
