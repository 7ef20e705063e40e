\ Numbers and the stack
1 2 + . 7 3 - . 6 7 * . 17 5 / . 17 5 mod . -17 5 / . 5 0 / . 10 emit
1 2 3 rot . . . 1 2 over . . . 3 dup * . 10 emit
1 2 < . 2 1 < . 2 2 = . 1 2 > . 0 0= . 5 0= . -1 invert . 1 5 lshift . -1 28 rshift . 10 emit

\ Recursion: each call is one of machine code
: fib dup 2 < if else dup 1- recurse swap 2 - recurse + then ;
: fibs 0 do i fib . loop ;
20 fibs 10 emit

\ Loops within loops
: row 0 do dup i 1+ * . loop drop 10 emit ;
: table 0 do i 1+ 5 row loop ;
5 table

\ Variables, and a loop that ends at last
variable n
variable steps
: odd 1 and ;
: next n @ odd if n @ 3 * 1+ else n @ 2 / then n ! ;
: collatz n ! 0 steps ! begin n @ 1 > while next steps @ 1+ steps ! repeat steps @ ;
27 collatz . 97 collatz . 10 emit

\ Primes by a sieve in the cells from 16 on
: flag 16 + ;
: clear 3000 0 do 1 i flag ! loop ;
: strike dup dup * begin dup 3000 < while 0 over flag ! over + repeat drop drop ;
: sieve clear 55 2 do i flag @ if i strike then loop ;
: count 0 3000 2 do i flag @ if 1+ then loop ;
sieve count . 10 emit

\ A deferred word is one jump, which `is` patches
defer shape
: square dup * ;
: cube dup dup * * ;
: show shape . ;
' square is shape 7 show
' cube is shape 7 show 10 emit

\ What is forgotten makes room for what comes
: twice 2 * ;
: often 0 do twice loop ;
1 10 often .
forget twice
: twice 3 * ;
: often 0 do twice loop ;
1 10 often . 10 emit
