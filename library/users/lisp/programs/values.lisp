; Values of each kind, and what is done with them.
(write '(1 (2 . 3) "a\"b\\" #t #f () -7 name)) (newline)
(write (list (+ 1 2 3 4) (- 10 1 2) (* 2 3 4) (quotient -7 2) (remainder -7 2) (- 5))) (newline)
(write (list (append '(1 2) '(3) '() '(4 5)) (reverse '(1 2 3)) (length '(1 2 3)))) (newline)
(write (list (equal? '(1 (2 "a")) '(1 (2 "a"))) (equal? '(1 2) '(1 3)) (equal? "a" 'a) (eq? 'a 'a) (eq? '() '()))) (newline)
(write (list (string<? "a" "b") (string<? "ab" "a") (string=? "ab" "ab") (string-append "a" "b" "c") (list->string '(72 105)))) (newline)
(write (list (symbol->string 'abc) (string->symbol "a") (number->string -120))) (newline)
(write (list (make-vector 3 'x) (vector-length (make-vector 300 0)) car)) (newline)

; Strings of more than one object.
(define (times text n) (if (= n 0) "" (string-append text (times text (- n 1)))))
(define long (times "0123456789" 37))
(write (list (string-length long) (substring long 118 123) (string-ref long 369) (string=? long (times "0123456789" 37)))) (newline)
(write (list (substring long 0 0) (substring long 240 241) (substring long 359 370))) (newline)

; Vectors of several objects.
(define v (make-vector 300 0))
(define (fill i) (when (< i 300) (vector-set! v i (* i i)) (fill (+ i 1))))
(fill 0)
(write (list (vector-ref v 0) (vector-ref v 15) (vector-ref v 16) (vector-ref v 255) (vector-ref v 256) (vector-ref v 299))) (newline)

; Forms.
(write (list (and) (and 1 2) (and #f 2) (or) (or #f 2) (cond (#f 1)) (cond ((car '(4)))) (when #f 1) (unless #f 1 2))) (newline)
(write (let ((x 1)) (let ((x 2) (y x)) (let* ((x 3) (z x)) (list x y z))))) (newline)
(write (let ((loop 5)) (let loop ((x loop)) (if (= x 0) 'end (loop (- x 1)))))) (newline)
(write (let () (define a 1) (define (b) (+ a 1)) (b))) (newline)
(define (rest a . others) (list a others))
(write (list (rest 1) (rest 1 2 3) (apply rest '(1 2)))) (newline)
