; (not (< (f b) 5)) holds while f b has no value, and read b cannot be executed then. set-same b b, swap a a, read a needs f a:
; set-same a b gives both, and afterwards (f b) is 1, so read a has to come by set-same a a: set-same a a, swap a a, read a.
(define (problem unset)
 (:domain clash)
 (:objects a b - thing)
 (:init (p a))
 (:goal (and (end) (p a) (not (< (f b) 5)))))
