; Within two steps he lights a before he walks: light a, walk, light b.
(define (problem always-within-two)
 (:domain shifts)
 (:objects g - guard a b - room)
 (:init (in g a) (alarm b))
 (:goal (and (lit a) (lit b)))
 (:constraints (always-within 2 (alarm b) (in g b))))
