; The king sits on the throne, both bow, and sit: five steps; music is not allowed before the last of them.
(define (problem court)
 (:domain seats)
 (:objects ann bob s1 s2)
 (:init (person king) (person ann) (person bob) (seat throne) (seat s1) (seat s2))
 (:goal (and (bowed ann) (bowed bob) (exists (?s) (sits ann ?s)) (exists (?s) (sits bob ?s)) (not (sits bob s1)))))
