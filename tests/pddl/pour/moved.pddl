; move x y.
(define (problem moved)
 (:domain pour)
 (:objects x y - cup)
 (:init (= (level x) 3) (= (level y) 3) (= (sum) 0))
 (:goal (and (= (level x) 0) (= (level y) 6))))
