; Generations: a table keeps the youngest lists of 32 kinds for a while, most others are garbage at once.
(define-once size 400)
(define-once slots 32)

(define (next seed) (remainder (+ (* seed 1103) 12345) 65536))

; A list of `length` equal numbers.
(define (row length value)
  (let loop ((length length) (made '()))
    (if (= length 0) made (loop (- length 1) (cons value made)))))

(define (sum list)
  (let loop ((list list) (total 0))
    (if (null? list) total (loop (cdr list) (+ total (car list))))))

(define (table-sum table i)
  (if (= i slots) 0 (+ (sum (vector-ref table i)) (table-sum table (+ i 1)))))

; Every seventh row stays until its slot is wanted again; `kept` is what the rows in the table should sum up to.
(define (churn rounds)
  (let ((table (make-vector slots '())))
    (let loop ((round 0) (seed 1) (kept 0) (seen 0))
      (if (= round rounds)
          (list (= kept (table-sum table 0)) kept seen)
          (let* ((made (row (+ 1 (remainder seed 9)) round))
                 (total (sum made)))
            (if (= (remainder round 7) 0)
                (let* ((slot (remainder (quotient seed 16) slots))
                       (old (sum (vector-ref table slot))))
                  (vector-set! table slot made)
                  (loop (+ round 1) (next seed) (- (+ kept total) old) (+ seen total)))
                (loop (+ round 1) (next seed) kept (+ seen total))))))))

(write (churn size))
(newline)
