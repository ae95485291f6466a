;; The programs of this folder for WebAssembly. TIMES and NAME stand for a number and one of them.
(module
  (memory 1)

  (func $sum (result i32) (local $sum i32) (local $n i32)
    (local.set $n (i32.const 20000))
    (loop $again
      (local.set $sum (i32.add (local.get $sum) (local.get $n)))
      (local.set $n (i32.sub (local.get $n) (i32.const 1)))
      (br_if $again (local.get $n)))
    (local.get $sum))

  (func $clear (param $end i32) (local $at i32)
    (loop $again
      (i32.store (local.get $at) (i32.const 0))
      (local.set $at (i32.add (local.get $at) (i32.const 4)))
      (br_if $again (i32.lt_u (local.get $at) (local.get $end)))))

  (func $memory (result i32) (local $round i32) (local $at i32) (local $word i32)
    (call $clear (i32.const 4096))
    (local.set $round (i32.const 5))
    (loop $rounds
      (local.set $at (i32.const 0))
      (loop $words
        (local.set $word
          (i32.add (i32.add (i32.load (local.get $at)) (local.get $at)) (i32.const 1)))
        (i32.store (local.get $at) (local.get $word))
        (local.set $at (i32.add (local.get $at) (i32.const 4)))
        (br_if $words (i32.lt_u (local.get $at) (i32.const 4096))))
      (local.set $round (i32.sub (local.get $round) (i32.const 1)))
      (br_if $rounds (local.get $round)))
    (local.get $word))

  (func $sieve (result i32) (local $number i32) (local $multiple i32) (local $count i32)
    (call $clear (i32.const 2048))
    (local.set $number (i32.const 2))
    (loop $numbers
      (if (i32.eqz (i32.load8_u (local.get $number)))
        (then
          (local.set $count (i32.add (local.get $count) (i32.const 1)))
          (local.set $multiple (i32.add (local.get $number) (local.get $number)))
          (block $done
            (loop $multiples
              (br_if $done (i32.ge_u (local.get $multiple) (i32.const 2048)))
              (i32.store8 (local.get $multiple) (i32.const 1))
              (local.set $multiple (i32.add (local.get $multiple) (local.get $number)))
              (br $multiples)))))
      (local.set $number (i32.add (local.get $number) (i32.const 1)))
      (br_if $numbers (i32.lt_u (local.get $number) (i32.const 2048))))
    (local.get $count))

  (func $sort (result i32)
    (local $drawn i32) (local $first i32) (local $at i32) (local $word i32) (local $sum i32)
    (local.set $drawn (i32.const 1))
    (loop $draw
      (local.set $drawn
        (i32.add (i32.mul (local.get $drawn) (i32.const 1103515245)) (i32.const 12345)))
      (i32.store (local.get $at) (i32.shr_u (local.get $drawn) (i32.const 16)))
      (local.set $at (i32.add (local.get $at) (i32.const 4)))
      (br_if $draw (i32.lt_u (local.get $at) (i32.const 512))))
    (local.set $first (i32.const 4))
    (loop $next
      (local.set $word (i32.load (local.get $first)))
      (local.set $at (local.get $first))
      (block $put
        (loop $move
          (br_if $put (i32.eqz (local.get $at)))
          (br_if $put
            (i32.ge_u (local.get $word) (i32.load (i32.sub (local.get $at) (i32.const 4)))))
          (i32.store (local.get $at) (i32.load (i32.sub (local.get $at) (i32.const 4))))
          (local.set $at (i32.sub (local.get $at) (i32.const 4)))
          (br $move)))
      (i32.store (local.get $at) (local.get $word))
      (local.set $first (i32.add (local.get $first) (i32.const 4)))
      (br_if $next (i32.lt_u (local.get $first) (i32.const 512))))
    (local.set $at (i32.const 0))
    (local.set $first (i32.const 1))
    (loop $add
      (local.set $sum
        (i32.add (local.get $sum) (i32.mul (i32.load (local.get $at)) (local.get $first))))
      (local.set $first (i32.add (local.get $first) (i32.const 1)))
      (local.set $at (i32.add (local.get $at) (i32.const 4)))
      (br_if $add (i32.lt_u (local.get $at) (i32.const 512))))
    (local.get $sum))

  (func (export "run") (result i32) (local $left i32) (local $result i32)
    (local.set $left (i32.const TIMES))
    (loop $again
      (local.set $result (call $NAME))
      (local.set $left (i32.sub (local.get $left) (i32.const 1)))
      (br_if $again (local.get $left)))
    (local.get $result)))
