; mark a; go a b: b gets 1 and, since a is marked and has a door to b, 10. c gets nothing. look in b needs for its doors to a
; and c a marked room behind each: behind a is b alone, and b is not marked.
(define (problem rooms)
 (:domain shadow)
 (:objects a b c - room)
 (:init (in a) (door a b) (door b a) (door b c) (door c b) (= (visits a) 0) (= (visits b) 0) (= (visits c) 0))
 (:goal (and (= (visits b) 11) (all))))
