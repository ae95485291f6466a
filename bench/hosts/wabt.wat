;; What bench/hosts/wabt.cc calls.
(module
  (import "host" "word" (func $word (result i32)))
  (memory 1)
  (func (export "add") (param i32 i32) (result i32)
    local.get 0
    local.get 1
    i32.add)
  (func (export "power") (param i32 i32) (result i32)
    (local i32)
    i32.const 1
    local.set 2
    (block
      (loop
        local.get 1
        i32.eqz
        br_if 1
        local.get 2
        local.get 0
        i32.mul
        local.set 2
        local.get 1
        i32.const 1
        i32.sub
        local.set 1
        br 0))
    local.get 2)
  (func (export "ten") (result i32)
    (local i32)
    (loop
      call $word
      drop
      local.get 0
      i32.const 1
      i32.add
      local.tee 0
      i32.const 10
      i32.lt_u
      br_if 0)
    local.get 0)
  (func (export "divides") (result i32)
    i32.const 1
    i32.const 0
    i32.div_u))
