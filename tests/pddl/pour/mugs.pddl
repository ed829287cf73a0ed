; top-up x: x = 1, m = 4. top-up m: m = 9.
(define (problem mugs)
 (:domain pour)
 (:objects x - cup m - mug)
 (:init (= (level x) 0) (= (level m) 0) (= (size m) 4) (hot m) (hot x))
 (:goal (and (= (level x) 1) (= (level m) 9))))
