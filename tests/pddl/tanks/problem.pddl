; Four litres with tanks of 5 and 3: six steps.
(define (problem four-litres)
 (:domain tanks)
 (:objects big small shut - tank)
 (:init (open big) (open small) (= (level big) 0) (= (room big) 5.0) (= (level small) 0) (= (room small) 3)
  (= (level shut) 1) (= (room shut) 5) (= (moves) 0))
 (:goal (and (= (level big) 4) (= (moves) 6))))
