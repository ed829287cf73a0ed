; `either` in parameters, predicates, quantifiers and types; a type above others; constants; types without things.
(define (domain zoo)
 (:requirements :typing :adl)
 (:types bird fish lion unicorn - animal
  duck - bird
  frog - (either bird fish)
  cage pool)
 (:constants donald - duck main - pool)
 (:predicates (in ?a - animal ?h - (either cage pool)) (fed ?a - (either bird fish)) (counted ?a - animal) (tame ?u - unicorn)
  (closed) (greeted ?x))
 (:action move
  :parameters (?a - (either fish bird) ?from ?to - (either cage pool))
  :precondition (and (in ?a ?from) (not (= ?from ?to)))
  :effect (and (not (in ?a ?from)) (in ?a ?to)))
 (:action feed
  :parameters (?p - pool)
  :precondition (exists (?a - (either bird fish)) (in ?a ?p))
  :effect (forall (?a - (either bird fish)) (when (in ?a ?p) (fed ?a))))
 (:action close
  :precondition (and (forall (?u - unicorn) (tame ?u)) (in donald main)
   (forall (?a - animal) (imply (exists (?c - cage) (in ?a ?c)) (not (fed ?a)))))
  :effect (closed))
 (:action count-one
  :parameters (?a - animal)
  :precondition (in ?a main)
  :effect (counted ?a))
 (:action tame-one
  :parameters (?u - unicorn)
  :effect (greeted main))
 (:action fly
  :parameters (?b - bird)
  :effect (counted ?b))
 (:action greet
  :parameters (?x)
  :precondition (closed)
  :effect (greeted ?x)))
