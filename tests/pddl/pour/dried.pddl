; dry x.
(define (problem dried)
 (:domain pour)
 (:objects x y - cup)
 (:init (= (level x) 0))
 (:goal (= (level x) 2)))
