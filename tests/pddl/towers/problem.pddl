; The tower a on b on c on d: d shall be above a, at any height. Three to take it down, one to put d on a.
(define (problem upside-down)
 (:domain towers)
 (:objects a b c d - block)
 (:init (on a b) (on b c) (on c d) (table d))
 (:goal (above d a)))
