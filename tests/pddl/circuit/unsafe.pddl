; The lamp is live from the start, and no wire is ever cut.
(define (problem unsafe)
 (:domain circuit)
 (:objects l - lamp p - plug)
 (:init (broken l) (wire p l) (power p))
 (:goal (safe l)))
