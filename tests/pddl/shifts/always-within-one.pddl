; The alarm in b rings from the start, so the guard walks there at once; it has to be quiet before he leaves again.
; walk, quiet, light b, walk, light a.
(define (problem always-within-one)
 (:domain shifts)
 (:objects g - guard a b - room)
 (:init (in g a) (alarm b))
 (:goal (and (lit a) (lit b)))
 (:constraints (always-within 1 (alarm b) (in g b))))
