; At c within four steps: drive, plug, rest, unplug, drive are five.
(define (problem late)
 (:domain rover)
 (:objects a b c - place)
 (:init (at a) (way a b) (way b c))
 (:goal (at c))
 (:constraints (within 4 (at c))))
