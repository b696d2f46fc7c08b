; How many ways there are to place queens: lists that are built and dropped.
(define-once size 5)

(define (safe? row distance placed)
  (or (null? placed)
      (and (not (= (car placed) row))
           (not (= (car placed) (+ row distance)))
           (not (= (car placed) (- row distance)))
           (safe? row (+ distance 1) (cdr placed)))))

(define (count-from row column placed)
  (cond ((= column size) 1)
        ((= row size) 0)
        (else
         (+ (if (safe? row 1 placed)
                (count-from 0 (+ column 1) (cons row placed))
                0)
            (count-from (+ row 1) column placed)))))

(display (count-from 0 0 '()))
(newline)
