; Satellites turn their instruments to stars and take images.
(define (domain satellites)
  (:requirements :strips :typing :durative-actions)
  (:types satellite instrument mode direction)
  (:predicates
    (on-board ?i - instrument ?s - satellite) (supports ?i - instrument ?m - mode)
    (pointing ?s - satellite ?d - direction) (power-avail ?s - satellite)
    (power-on ?i - instrument) (calibrated ?i - instrument)
    (have-image ?d - direction ?m - mode) (calibration-target ?i - instrument ?d - direction))

  (:durative-action TURN-TO
    :parameters (?s - satellite ?d-new ?d-prev - direction)
    :duration (= ?duration 5)
    :condition (and (at start (pointing ?s ?d-prev)) (over all (not (= ?d-new ?d-prev))))
    :effect (and (at end (pointing ?s ?d-new)) (at start (not (pointing ?s ?d-prev)))))

  (:durative-action switch-on
    :parameters (?i - instrument ?s - satellite)
    :duration (= ?duration 2)
    :condition (and (over all (on-board ?i ?s)) (at start (power-avail ?s)))
    :effect (and
      (at end (power-on ?i))
      (at start (not (calibrated ?i)))
      (at start (not (power-avail ?s)))))

  (:durative-action switch-off
    :parameters (?i - instrument ?s - satellite)
    :duration (= ?duration 1)
    :condition (and (over all (on-board ?i ?s)) (at start (power-on ?i)))
    :effect (and (at start (not (power-on ?i))) (at end (power-avail ?s))))

  (:durative-action calibrate
    :parameters (?s - satellite ?i - instrument ?d - direction)
    :duration (= ?duration 7.250)
    :condition (and
      (over all (on-board ?i ?s))
      (over all (calibration-target ?i ?d))
      (at start (pointing ?s ?d))
      (over all (power-on ?i))
      (at end (power-on ?i)))
    :effect (at end (calibrated ?i)))

  (:durative-action take-image
    :parameters (?s - satellite ?d - direction ?i - instrument ?m - mode)
    :duration (= ?duration 7)
    :condition (and
      (over all (and (calibrated ?i) (on-board ?i ?s) (supports ?i ?m) (power-on ?i) (pointing ?s ?d)))
      (at end (power-on ?i)))
    :effect (at end (have-image ?d ?m))))
