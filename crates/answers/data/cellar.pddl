(define (domain cellar)
 (:requirements :durative-actions)
 (:durative-action light-match
  :parameters (?m)
  :duration (= ?duration 8)
  :condition ()
  :effect (and (at start (light)) (at end (not (light)))))
 (:durative-action mend-fuse
  :parameters (?f - fuse)
  :duration (= ?duration 5)
  :condition (over all (light))
  :effect (at end (mended ?f))))
