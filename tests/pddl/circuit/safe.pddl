; The plug is live, and safe since it is dark.
(define (problem safe)
 (:domain circuit)
 (:objects l - lamp p - plug)
 (:init (broken l) (wire p l) (power p))
 (:goal (and (safe p) (live p))))
