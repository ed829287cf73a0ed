; A plug is never lit: join p l, mend l, switch p.
(define (problem any)
 (:domain circuit)
 (:objects l - lamp p - plug)
 (:init (broken l))
 (:goal (exists (?n - node) (lit ?n))))
