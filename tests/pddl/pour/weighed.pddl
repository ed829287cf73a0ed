; weigh x, which is wet and not hot, adds 20 and 7 at once, and weigh y, which is hot, 10.
(define (problem weighed)
 (:domain pour)
 (:objects x y - cup)
 (:init (= (level x) 7) (= (level y) 3) (= (level rim) 0) (= (sum) 0) (hot y) (wet x))
 (:goal (and (= (sum) 37) (done))))
