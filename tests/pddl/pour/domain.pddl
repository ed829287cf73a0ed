; Updates of one function that may meet in one place.
(define (domain pour)
 (:requirements :adl :fluents)
 (:types cup - object mug - cup)
 (:constants rim - cup)
 (:predicates (hot ?c - cup) (wet ?c - cup) (done))
 (:functions (level ?c - cup) (size ?m - mug) (sum))
 ; With one cup twice: 1 and 2 are added to one place.
 (:action both
  :parameters (?c ?d - cup)
  :precondition (not (done))
  :effect (and (increase (level ?c) 1) (increase (level ?d) 2)))
 ; All hot cups lose 1, and the given one gains 5: a hot one gains 4.
 (:action warm
  :parameters (?c - cup)
  :effect (and (forall (?d - cup) (when (hot ?d) (decrease (level ?d) 1))) (increase (level ?c) 5)))
 ; With one cup twice it cannot be executed: a place is assigned, and increased too.
 (:action move
  :parameters (?c ?d - cup)
  :effect (and (increase (level ?d) (level ?c)) (assign (level ?c) 0)))
 ; Three conditions, of which two exclude each other.
 (:action weigh
  :parameters (?c - cup)
  :effect (and (when (hot ?c) (increase (sum) 10)) (when (not (hot ?c)) (increase (sum) 20))
   (when (wet ?c) (increase (sum) (level ?c)))))
 ; A hot mug that is given gains 1 and its size; a cup that is no mug has none.
 (:action top-up
  :parameters (?c - cup)
  :effect (and (increase (level ?c) 1) (forall (?m - mug) (when (hot ?m) (increase (level ?m) (size ?m))))))
 ; With one cup twice it cannot be executed, even where both would give 1.
 (:action rinse
  :parameters (?c ?d - cup)
  :effect (and (assign (level ?c) 1) (increase (level ?d) 1) (wet ?c)))
 ; With anything wet it cannot be executed.
 (:action dry
  :parameters (?c - cup)
  :effect (and (increase (level ?c) 2) (forall (?d - cup) (when (wet ?d) (assign (level ?c) 0)))))
 (:action finish :precondition (not (done)) :effect (done)))
