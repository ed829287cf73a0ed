; Join p and l, mend l, switch p, wait: four steps.
(define (problem light)
 (:domain circuit)
 (:objects l - lamp p - plug)
 (:init (broken l))
 (:goal (and (warm l) (or (dark) (live p)) (live l))))
