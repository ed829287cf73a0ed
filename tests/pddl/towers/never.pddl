; A block that is above itself.
(define (problem never)
 (:domain towers)
 (:objects a b c - block)
 (:init (on a b) (on b c) (table c))
 (:goal (exists (?x - block) (above ?x ?x))))
