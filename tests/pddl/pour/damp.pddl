; y is wet, so x is topped up twice.
(define (problem damp)
 (:domain pour)
 (:objects x y - cup)
 (:init (= (level x) 0) (wet y))
 (:goal (= (level x) 2)))
