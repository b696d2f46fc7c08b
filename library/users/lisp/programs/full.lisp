; A heap without room is an error like others, told with its expression; what was built is dropped, and the program goes on.
(define-once size 3)

(define (build made) (build (cons made (make-vector 16 0))))

(define (deep n) (+ 1 (deep n)))

(define (grow text) (grow (string-append text text)))

(define (again n)
  (when (> n 0)
    (let ((error (try (build '()))))
      (write (error-message error)))
    (let ((error (try (deep 1))))
      (write (error-message error)))
    (let ((error (try (grow "abcdefgh"))))
      (write (error-message error)))
    (newline)
    (again (- n 1))))

(again size)
(write (pair? (error-expression (try (grow "abcdefgh")))))
(newline)
(write (string-length (string-append "still" " " "here")))
(newline)
