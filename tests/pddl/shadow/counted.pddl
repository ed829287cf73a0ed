; count: b has a door from a, which is marked.
(define (problem counted)
 (:domain shadow)
 (:objects a b c - room)
 (:init (in c) (marked a) (door a b) (door b a) (door b c) (door c b) (= (visits a) 0) (= (visits b) 0) (= (visits c) 0))
 (:goal (and (= (visits a) 1) (= (visits b) 11) (= (visits c) 1))))
