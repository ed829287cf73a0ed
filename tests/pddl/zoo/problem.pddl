; The lion stays where it is; donald and the frog have to be fed, so they are moved to a pool: move, move, feed, and the
; greeting of donald needs it to be closed.
(define (problem evening)
 (:domain zoo)
 (:objects leo - lion fritz - frog c1 - cage p2 - pool bait - (either bird fish))
 (:init (in leo c1) (in fritz c1) (in donald c1) (in bait c1))
 (:goal (and (fed donald) (fed fritz) (greeted donald) (not (fed bait)))))
