; look a, drive a b, look b, send, plug.
(define (problem first-message)
 (:domain rover)
 (:objects a b d - place)
 (:init (at a) (way a b) (way a d) (way d b) (crater d))
 (:goal (and (at b) (sent)))
 (:constraints (and
  (sometime-before (sent) (seen b))
  (sometime-after (sent) (charging))
  (forall (?p - place) (sometime-before (at b) (and (seen a) (not (crater b)))))
  (sometime (and (charging) (seen b))))))
