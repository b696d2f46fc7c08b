; Several threads, one set of globals: each adds to one counter by compare-exchange, and to a table of its own kind.
(define-once size 40)
(define-once counter 0)
(define-once arrived 0)
(define-once table (make-vector 20 0))

; Adds to a global that others change too. The value that is compared is the very number that was read.
(define (add! name read by)
  (let ((old (read)))
    (if (global-cas! name old (+ old by))
        by
        (add! name read by))))

(define (add-to-table! i)
  (let ((old (vector-ref table i)))
    (if (vector-cas! table i old (+ old 1))
        i
        (add-to-table! i))))

(define (work n)
  (when (> n 0)
    (add! 'counter (lambda () counter) (thread))
    (add-to-table! (remainder n 20))
    (work (- n 1))))

; Not for ever: a count that is lost is to be seen.
(define (wait-for-all rounds)
  (when (and (< arrived (threads)) (> rounds 0))
    (yield)
    (wait-for-all (- rounds 1))))

(define (table-sum i)
  (if (= i 20) 0 (+ (vector-ref table i) (table-sum (+ i 1)))))

(work size)
(add! 'arrived (lambda () arrived) 1)
(wait-for-all 200000)

; Of T threads: size * (1 + .. + T), and size * T.
(write (list (= counter (* size (quotient (* (threads) (+ (threads) 1)) 2)))
             (= (table-sum 0) (* size (threads)))))
(newline)
