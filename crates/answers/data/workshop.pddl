; Robots carry parts between the stations of a workshop. A station mills one part at a time; the bench joins two milled parts.
; Fixed durations in seconds; conditions and effects are conjunctions of literals.
(define (domain workshop)
  (:requirements :strips :typing :negative-preconditions :durative-actions)
  (:types robot part station)
  (:predicates
    (is-at ?r - robot ?s - station) (empty ?r - robot) (holds ?r - robot ?p - part)
    (lies ?p - part ?s - station) (idle ?s - station) (mills ?s - station) (joins ?s - station)
    (milled ?p - part) (joined ?p ?q - part))

  (:durative-action move
    :parameters (?r - robot ?from ?to - station)
    :duration (= ?duration 12)
    :condition (at start (is-at ?r ?from))
    :effect (and (at start (not (is-at ?r ?from))) (at end (is-at ?r ?to))))

  (:durative-action load
    :parameters (?r - robot ?p - part ?s - station)
    :duration (= ?duration 3.500)
    :condition (and
      (over all (is-at ?r ?s))
      (at start (empty ?r))
      (at start (lies ?p ?s)))
    :effect (and
      (at start (not (empty ?r)))
      (at start (not (lies ?p ?s)))
      (at end (holds ?r ?p))))

  (:durative-action unload
    :parameters (?r - robot ?p - part ?s - station)
    :duration (= ?duration 2.500)
    :condition (and (over all (is-at ?r ?s)) (at start (holds ?r ?p)))
    :effect (and
      (at start (not (holds ?r ?p)))
      (at end (lies ?p ?s))
      (at end (empty ?r))))

  (:durative-action mill
    :parameters (?p - part ?s - station)
    :duration (= ?duration 45)
    :condition (and
      (at start (and (idle ?s) (mills ?s) (not (milled ?p))))
      (over all (lies ?p ?s)))
    :effect (and
      (at start (not (idle ?s)))
      (at end (and (idle ?s) (milled ?p)))))

  (:durative-action join
    :parameters (?p ?q - part ?s - station)
    :duration (= ?duration 60)
    :condition (and
      (at start (and (idle ?s) (joins ?s)))
      (at start (and (milled ?p) (milled ?q)))
      (over all (and (lies ?p ?s) (lies ?q ?s))))
    :effect (and
      (at start (not (idle ?s)))
      (at end (idle ?s))
      (at end (joined ?p ?q)))))
