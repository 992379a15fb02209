(define (problem ring-3) (:domain ring) (:objects r1 r2 r3)
 (:init (at r1) (next r1 r2) (next r2 r3) (next r3 r1))
 (:goal (and (at r2) (at r3))))
