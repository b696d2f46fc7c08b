; Two ways to sort the same numbers, a list by merging and a vector in place, and whether they agree.
(define-once size 60)

(define (next seed) (remainder (+ (* seed 1103) 12345) 65536))

(define (numbers count seed)
  (let loop ((count count) (seed seed) (made '()))
    (if (= count 0)
        made
        (loop (- count 1) (next seed) (cons (remainder seed 1000) made)))))

(define (merge a b)
  (let loop ((a a) (b b) (merged '()))
    (cond ((null? a) (append (reverse merged) b))
          ((null? b) (append (reverse merged) a))
          ((< (car b) (car a)) (loop a (cdr b) (cons (car b) merged)))
          (else (loop (cdr a) b (cons (car a) merged))))))

(define (take list count)
  (if (= count 0) '() (cons (car list) (take (cdr list) (- count 1)))))

(define (drop list count)
  (if (= count 0) list (drop (cdr list) (- count 1))))

(define (sort-list list)
  (if (or (null? list) (null? (cdr list)))
      list
      (let ((half (quotient (length list) 2)))
        (merge (sort-list (take list half)) (sort-list (drop list half))))))

(define (list->vector list)
  (let ((vector (make-vector (length list) 0)))
    (let loop ((list list) (i 0))
      (cond ((null? list) vector)
            (else (vector-set! vector i (car list))
                  (loop (cdr list) (+ i 1)))))))

(define (swap! vector i j)
  (let ((held (vector-ref vector i)))
    (vector-set! vector i (vector-ref vector j))
    (vector-set! vector j held)))

; All below the pivot before `store`; then the pivot.
(define (partition! vector low high)
  (let ((pivot (vector-ref vector high)))
    (let loop ((i low) (store low))
      (cond ((= i high) (swap! vector store high) store)
            ((< (vector-ref vector i) pivot)
             (swap! vector i store)
             (loop (+ i 1) (+ store 1)))
            (else (loop (+ i 1) store))))))

(define (sort-vector! vector low high)
  (when (< low high)
    (let ((middle (partition! vector low high)))
      (sort-vector! vector low (- middle 1))
      (sort-vector! vector (+ middle 1) high))))

(define (agree? list vector i)
  (or (null? list)
      (and (= (car list) (vector-ref vector i))
           (agree? (cdr list) vector (+ i 1)))))

(let* ((given (numbers size 7))
       (sorted (sort-list given))
       (vector (list->vector given)))
  (sort-vector! vector 0 (- size 1))
  (write (list (length sorted) (car sorted) (apply + sorted) (agree? sorted vector 0)))
  (newline))
