; Robots patrol rooms. A patrol needs the door of its room open from its start to its end, and a door stays open for
; twenty seconds.
(define (domain doors)
  (:requirements :strips :typing :durative-actions)
  (:types robot room)
  (:predicates (at ?r - robot ?a - room) (open ?a - room) (patrolled ?a - room))

  (:durative-action open-door
    :parameters (?a - room)
    :duration (= ?duration 20)
    :condition ()
    :effect (and (at start (open ?a)) (at end (not (open ?a)))))

  (:durative-action move
    :parameters (?r - robot ?from ?to - room)
    :duration (= ?duration 5)
    :condition (at start (at ?r ?from))
    :effect (and (at start (not (at ?r ?from))) (at end (at ?r ?to))))

  (:durative-action patrol
    :parameters (?r - robot ?a - room)
    :duration (= ?duration 8)
    :condition (and (over all (at ?r ?a)) (over all (open ?a)))
    :effect (at end (patrolled ?a))))
