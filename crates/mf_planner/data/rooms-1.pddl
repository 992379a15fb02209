(define (problem rooms-1) (:domain rooms) (:objects rooma roomb ball1)
 (:init (room rooma) (room roomb) (ball ball1) (at-robot rooma) (at ball1 rooma) (free))
 (:goal (at ball1 roomb)))
