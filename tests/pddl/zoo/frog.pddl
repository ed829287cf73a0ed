; A frog may be no bird, so it does not fly: move fritz, count-one fritz.
(define (problem frog)
 (:domain zoo)
 (:objects fritz - frog c1 - cage)
 (:init (in donald main) (in fritz c1))
 (:goal (counted fritz)))
