; Three drives need two rests, and for the second one the battery would be filled a second time, but that the rover may stay
; at the plug: a rest is needed after each drive, and no drive is possible while it is charging. So there is no plan.
(define (problem three-drives)
 (:domain rover)
 (:objects a b c d - place)
 (:init (at a) (way a b) (way b c) (way c d))
 (:goal (at d)))
