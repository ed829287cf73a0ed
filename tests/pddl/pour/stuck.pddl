; move x x is no step, and move x rim needs a value of rim: rinse rim x, move x rim.
(define (problem stuck)
 (:domain pour)
 (:objects x y - cup)
 (:init (= (level x) 3) (= (sum) 0))
 (:goal (= (level x) 0)))
