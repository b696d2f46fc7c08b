; Errors are values.
(define (told error) (list (error-message error) (error-about error) (error-expression error)))

(write (told (try (car 5)))) (newline)
(write (told (try (nobody 1 2)))) (newline)
(write (told (try ("text" 1)))) (newline)
(write (told (try ((lambda (x) x))))) (newline)
(write (told (try (quotient 7 0)))) (newline)
(write (told (try (vector-ref (make-vector 3 0) 3)))) (newline)
(write (told (try (* 100000000000 100000000000)))) (newline)
(write (told (try (+ 576460752303423487 1)))) (newline)
(write (told (try (error "my own" '(1 2))))) (newline)
(write (told (try (letrec ((a b) (b 1)) a)))) (newline)
(write (told (try (apply car '(1 2))))) (newline)
(write (told (try (string-append "a" 'b)))) (newline)
(write (told (try (set! unknown 1)))) (newline)
(write (told (try (raise (try (cdr '())))))) (newline)

; An error in an error's handler, and the value of what went well.
(write (try (+ 1 (try (+ 2 3))))) (newline)
(write (error? (try (+ 1 (try (car '())))))) (newline)

; What the procedure had done before it failed stays done.
(define done 0)
(try (begin (set! done 1) (car done) (set! done 2)))
(write done) (newline)

(write (- 5)) (write (- 576460752303423487)) (newline)
