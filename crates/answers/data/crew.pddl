; The day of a crew in orbit: meals, exercise, a filter to change, and a report to the ground.
; Fixed durations in seconds; conditions and effects are conjunctions of literals.
(define (domain crew-planning)
  (:requirements :strips :typing :negative-preconditions :equality :durative-actions)
  (:types member filter day device - object)
  (:constants treadmill - device)
  (:predicates
    (awake ?c - member) (fed ?c - member ?d - day) (exercised ?c - member ?d - day)
    (free ?x - device) (worn ?f - filter) (fresh ?f - filter) (stowed ?f - filter)
    (briefed ?d - day) (reported ?d - day) (rested ?c - member ?d - day) (next ?d1 ?d2 - day))

  (:durative-action have-meal
    :parameters (?c - member ?d - day)
    :duration (= ?duration 3600)
    :condition (and (at start (not (fed ?c ?d))) (over all (awake ?c)))
    :effect (at end (fed ?c ?d)))

  (:durative-action exercise
    :parameters (?c - member ?d - day)
    :duration (= ?duration 5400)
    :condition (and
      (at start (and (free treadmill) (fed ?c ?d)))
      (over all (awake ?c)))
    :effect (and
      (at start (not (free treadmill)))
      (at end (and (free treadmill) (exercised ?c ?d)))))

  (:durative-action change-filter
    :parameters (?c - member ?old ?new - filter)
    :duration (= ?duration 1200.500)
    :condition (and
      (at start (not (= ?old ?new)))
      (at start (worn ?old))
      (at start (stowed ?new))
      (over all (awake ?c)))
    :effect (and
      (at start (not (stowed ?new)))
      (at end (not (worn ?old)))
      (at end (fresh ?new))))

  (:durative-action report
    :parameters (?c - member ?d - day)
    :duration (= ?duration 900)
    :condition (and (at start (briefed ?d)) (over all (awake ?c)) (at end (briefed ?d)))
    :effect (at end (reported ?d)))

  (:durative-action sleep
    :parameters (?c - member ?d1 - day ?d2 - day)
    :duration (= ?duration 28800)
    :condition (at start (and (awake ?c) (exercised ?c ?d1) (next ?d1 ?d2)))
    :effect (and
      (at start (not (awake ?c)))
      (at end (awake ?c))
      (at end (rested ?c ?d2)))))
