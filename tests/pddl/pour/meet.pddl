; warm x: x = 5, y = -1 (hot). both y x: x = 7, y = 0. both y y: y = 3.
(define (problem meet)
 (:domain pour)
 (:objects x y - cup)
 (:init (= (level x) 0) (= (level y) 0) (= (level rim) 0) (= (sum) 0) (hot y) (wet x))
 (:goal (and (= (level x) 7) (= (level y) 3))))
