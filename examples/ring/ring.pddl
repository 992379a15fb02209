(define (domain ring)
 (:predicates (at ?r) (next ?a ?b))
 (:action go :parameters (?a ?b) :precondition (and (at ?a) (next ?a ?b))
  :effect (and (at ?b) (not (at ?a)))))
