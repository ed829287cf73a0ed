; Names that are reserved, that differ in case alone, or that have other signs than the language knows.
(DEFINE (DOMAIN Names-1)
 (:REQUIREMENTS :TYPING :equality :adl)
 (:Types Next Until STEPS)
 (:predicates (NEXT ?a ?b - next) (goal ?a - next) (until ?u - Until) (And-then ?a - Next) (for))
 (:functions (within ?A - next) (Steps))
 (:action Go
  :parameters (?X ?x2 - Next)
  :precondition (And (next ?x ?X2) (GOAL ?x))
  :effect (and (not (goal ?x)) (Goal ?x2) (increase STEPS 1)))
 (:action note
  :parameters (?s - steps)
  :effect (for))
 (:action GOAL
  :parameters (?x - next ?u? - until)
  :precondition (and (goal ?x) (until ?u?) (= (within ?X) 7))
  :effect (and (FOR) (and-then ?x))))
