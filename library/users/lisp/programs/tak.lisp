; Takeuchi's function: calls whose arguments are calls.
(define-once size 8)

(define (tak x y z)
  (if (not (< y x))
      z
      (tak (tak (- x 1) y z)
           (tak (- y 1) z x)
           (tak (- z 1) x y))))

(display (tak size (quotient (* size 2) 3) (quotient size 3)))
(newline)
