; Two walks and a train cost 20; a bus and a train, which are fewer actions, 23.
(define (problem city)
 (:domain fares)
 (:objects home market station city - place)
 (:init (at home) (near home market) (near market station) (bus home station) (train station city) (= (total-cost) 0))
 (:goal (at city))
 (:metric minimize (total-cost)))
