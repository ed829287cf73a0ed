; rinse y y is no step, and rinse y rim needs a value of rim: rinse rim y, rinse y rim.
(define (problem rinsed)
 (:domain pour)
 (:objects x y - cup)
 (:init (= (level y) 0) (= (sum) 0))
 (:goal (wet y)))
