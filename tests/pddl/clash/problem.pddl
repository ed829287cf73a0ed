; swap a a keeps (p a) and makes (q a); f has no value before an action sets it. set-both b a is refused before swap b ..;
; (g a) = 4 needs f a = 2: swap a b or swap a a gives q a; then set-both x a needs q x with x not a: q b needs p b first.
; swap a b, swap b b, set-both b a, read a: four steps.
(define (problem clash)
 (:domain clash)
 (:objects a b - thing)
 (:init (p a))
 (:goal (and (= (g a) 4) (p b))))
