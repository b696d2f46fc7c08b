; Procedures that keep variables, and calls in the last place that need no stack.
(define-once size 2000)

(define (make-counter)
  (let ((count 0))
    (lambda (by) (set! count (+ count by)) count)))

(define first (make-counter))
(define second (make-counter))
(first 5)
(second 100)
(write (list (first 1) (second 1)))
(newline)

(define (compose . procedures)
  (if (null? procedures)
      (lambda (x) x)
      (lambda (x) ((car procedures) ((apply compose (cdr procedures)) x)))))

(write ((compose (lambda (x) (* x 2)) (lambda (x) (+ x 1)) car) '(20 30)))
(newline)

(define (even-steps? n) (if (= n 0) #t (odd-steps? (- n 1))))
(define (odd-steps? n) (if (= n 0) #f (even-steps? (- n 1))))
(write (even-steps? size))
(newline)

; Not in the last place: as deep as the number.
(define (depth n) (if (= n 0) 0 (+ 1 (depth (- n 1)))))
(write (depth (quotient size 10)))
(newline)

; Recursion without a name.
(write
 ((lambda (f) (f f 10))
  (lambda (f n) (if (= n 0) 1 (* n (f f (- n 1)))))))
(newline)

; Each turn has variables of its own.
(define made
  (let loop ((i 0) (made '()))
    (if (= i 3) made (let ((square (* i i))) (loop (+ i 1) (cons (lambda () square) made))))))
(write (list ((car made)) ((car (cdr made))) ((car (cdr (cdr made))))))
(newline)
