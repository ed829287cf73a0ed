; A lift that serves people: conditional and universal effects, quantified and negative preconditions, a type with two
; types below it.
(define (domain lift)
 (:requirements :adl :typing)
 (:types guest person - being floor)
 (:types staff - being)
 (:predicates (waits ?p - being ?f - floor) (wants ?p - being ?f - floor) (inside ?p - being) (served ?p - being)
  (lift-at ?f - floor) (locked ?f - floor) (guide ?p - being))
 (:action stop
  :parameters (?f - floor)
  :precondition (and (lift-at ?f) (not (locked ?f)))
  :effect (and (forall (?p - being) (when (and (inside ?p) (wants ?p ?f)) (and (not (inside ?p)) (served ?p))))
   (forall (?p - being) (when (waits ?p ?f) (and (inside ?p) (not (waits ?p ?f)))))))
 (:action go
  :parameters (?from ?to - floor)
  :precondition (and (lift-at ?from) (not (= ?from ?to))
   ; No guest rides without a guide.
   (forall (?p - guest) (imply (inside ?p) (exists (?q - staff) (and (inside ?q) (guide ?q))))))
  :effect (and (not (lift-at ?from)) (lift-at ?to)))
 (:action unlock
  :parameters (?f - floor)
  :precondition (and (locked ?f) (exists (?p - staff) (inside ?p)))
  :effect (not (locked ?f))))
