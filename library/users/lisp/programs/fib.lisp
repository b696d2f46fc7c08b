; Numbers and calls: each call leaves a few numbers and a frame behind.
(define-once size 13)

(define (fib n)
  (if (< n 2)
      n
      (+ (fib (- n 1)) (fib (- n 2)))))

(display (fib size))
(newline)
