; A string that is built from pieces, halves first, and looked through again.
(define-once size 40)

(define (joined from to)
  (if (= (+ from 1) to)
      (string-append (number->string (* from from)) ";")
      (let ((middle (quotient (+ from to) 2)))
        (string-append (joined from middle) (joined middle to)))))

; The numbers of all its bytes, one after the other, in one.
(define (hash text)
  (let ((end (string-length text)))
    (let loop ((i 0) (sum 7))
      (if (= i end)
          sum
          (loop (+ i 1) (remainder (+ (* sum 31) (string-ref text i)) 1000003))))))

(let ((text (joined 0 size)))
  (write (list (string-length text) (hash text) (substring text 0 11)))
  (newline))
