; Threads that all make the same new names: each name is one symbol for all.
(define-once size 12)
(define-once seen (make-vector size '()))

(define (name i) (string->symbol (string-append "name-" (number->string i))))

; The first thread to come leaves its symbol; all others must have the same.
(define (same-for-all? i)
  (let ((mine (name i)))
    (vector-cas! seen i '() mine)
    (eq? mine (vector-ref seen i))))

(define (check i)
  (or (= i size)
      (and (same-for-all? i) (check (+ i 1)))))

(write (check 0))
(newline)
