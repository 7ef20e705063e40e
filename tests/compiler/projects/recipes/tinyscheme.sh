#!/bin/sh -eu
# TinyScheme: a program for its library. There are no shared objects, so its own flags leave out the loader.
build() {
    make CC="$CC" PLATFORM_FEATURES= FEATURES='-DUSE_DL=0 -DUSE_MATH=1 -DUSE_ASCII_NAMES=0' SYS_LIBS=-lm scheme
}

check() {
    cat > it.scm << 'END'
(define (fact n) (if (= n 0) 1 (* n (fact (- n 1)))))
(display (fact 10)) (newline)
(display (map (lambda (x) (* x x)) '(1 2 3))) (newline)
(display (list (sqrt 2) (exp 1) (string-append "a" "b") (call/cc (lambda (k) (+ 1 (k 42)))))) (newline)
(let loop ((i 0)) (if (< i 100000) (loop (+ i 1)))) (display 'done) (newline)
END
    run ./scheme it.scm
}
