; The shut tank is doubled twice, after which `best` is 5 - 2 = 3: it has no value before, so no comparison with it is true.
(define (problem closed)
 (:domain tanks)
 (:objects shut - tank)
 (:init (= (level shut) 1) (= (room shut) 5))
 (:goal (and (= (level shut) 4) (>= 3 (best)) (= (- 7) (- (best) 10)))))
