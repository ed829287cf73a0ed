; A lion is not moved.
(define (problem lion)
 (:domain zoo)
 (:objects leo - lion c1 - cage)
 (:init (in leo c1) (in donald c1))
 (:goal (counted leo)))
