# Each operation once.
first:
li r1 4294967295
mov r2 r3
add r4 r5 r6
sub r7 r8 r9
mul r10 r11 r12
and r13 r14 r15
or r0 r1 r2
xor r3 r4 r5
shl r6 r7 r8
shr r9 r10 r11
divu r12 r13 r14
remu r15 r0 r1
sltu r2 r3 r4
addi r5 r6 7
andi r8 r9 10
ldw r11 r12
stw r13 r14
.bytes 00ff
ldb r15 r0
stb r1 r2
jmp first
jz r3 last_1
jnz r4 @2
call ask_sched
callr r5
trap 6
last_1:
ret
.bytes 7f
