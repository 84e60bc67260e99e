"""Rows of tools/process.py on what --explain adds below a line."""
import struct

from process_rows import CALLS, NUMBERS, Row, lines_of, rows_of

# Classes, and what is known of each where it is refused.
EXPLAINED = r"""
verify - --explain / .method f r 15 0 / and r2, 15 / add r1, r2 / ldxb r0, [r1+0] / exit
=> 1 refused method 0 slot 2: 10 Bounds // method f, IN 15, OUT 0 // ldxb r0, [r1+0] // r1 = input + 0..15 //
    wanted: a pointer, and all of the bytes within its region // see docs/VERIFIER.md, 10 Bounds //
    it may be 1 bytes from input + 15 on, of 15: from input + 14 on at most //
    bound what is added to r1, by `jgt` or `and` before the `add` // line 4: ldxb r0, [r1+0]
verify - --explain / .method f r 16 0 / stxdw [r10-4], r2 / mov r0, 0 / exit
=> 1 refused method 0 slot 0: 10 Bounds // method f, IN 16, OUT 0 // stxdw [r10-4], r2 // r2 = 0..16 //
    r10 = stack + 512 // wanted: a pointer, and all of the bytes within its region //
    see docs/VERIFIER.md, 10 Bounds // it may be 8 bytes from stack + 508 on, of 512: from stack + 504 on at most //
    a lower place: the stack is [r10-512] to [r10-1] // line 2: stxdw [r10-4], r2
verify - --explain / .method f r 0 0 / mov r1, 0 / call 13 / mov r0, r1 / exit
=> 1 refused method 0 slot 2: 5 UnsetRead // method f, IN 0, OUT 0 // mov r0, r1 // r1 = unset //
    wanted: each of these registers set on every way that leads here // see docs/VERIFIER.md, 5 UnsetRead //
    a call unsets r1 to r5: keep r1 in r6 to r9 before it // line 4: mov r0, r1
verify - --explain / .method f r 0 0 / mov r0, 0 / exit / mov r0, 1
=> 1 refused method 0 slot 2: 3 FallsOff // method f, IN 0, OUT 0 // mov r0, 1 // nothing leads here //
    wanted: exit or a jump as the last instruction // see docs/VERIFIER.md, 3 FallsOff // `exit` after it //
    line 4: mov r0, 1
verify - --explain / .method f r 0 0 / mov r1, r10 / call 13 / exit
=> 1 refused method 0 slot 1: 13 HelperArgument // method f, IN 0, OUT 0 // call 13 // r1 = stack + 512 //
    wanted: the arguments in the order of the helper, and an output length of at most OUT //
    see docs/VERIFIER.md, 13 HelperArgument // `call 13` is `out_len(length)`: r1 is `length` //
    r1 takes a number // line 3: call 13
verify - --explain / .method f r 0 0 / mov r0, 0 / ja -2 / exit
=> 1 refused method 0 slot 1: 1 Backward // method f, IN 0, OUT 0 // ja -2 //
    wanted: a jump forward: the distance is at least 0 // see docs/VERIFIER.md, 1 Backward //
    jumps go forward: write a loop out, with an exit where it may end early // line 3: ja -2
verify - --explain / .method f r 0 0 / jeq r1, 0, +0 / exit
=> 1 refused method 0 slot 0: 8 PointerCompare // method f, IN 0, OUT 0 // jeq r1, 0, +0 // r1 = input + 0 //
    wanted: numbers on both sides // see docs/VERIFIER.md, 8 PointerCompare //
    r1 is a pointer, which is never null: compare a length, a place or an answer // line 2: jeq r1, 0, +0
verify - --explain / .method f r 0 0 / mov r0, r1 / exit
=> 1 refused method 0 slot 1: 15 ReturnsPointer // method f, IN 0, OUT 0 // exit // r0 = input + 0 //
    wanted: a number in register 0 // see docs/VERIFIER.md, 15 ReturnsPointer //
    `mov r0, 0` before it, or another number; output goes by `call 13` // line 3: exit
verify - --all --explain / .method f r 0 0 / mov r0, 0 / exit / .method g r 0 0 / exit / .method h r 0 0 /
    mov r0, r1 / exit
=> 1 f ok 2 / refused method 1 slot 0: 5 UnsetRead // method g, IN 0, OUT 0 // exit // r0 = unset //
    wanted: each of these registers set on every way that leads here // see docs/VERIFIER.md, 5 UnsetRead //
    no instruction before it sets r0: set it first // line 5: exit / refused method 2 slot 1: 15 ReturnsPointer //
    method h, IN 0, OUT 0 // exit // r0 = input + 0 // wanted: a number in register 0 //
    see docs/VERIFIER.md, 15 ReturnsPointer // `mov r0, 0` before it, or another number; output goes by `call 13` //
    line 8: exit
verify unset.img --explain
=> 1 refused method 0 slot 0: 5 UnsetRead // method f, IN 0, OUT 0 // exit // r0 = unset //
    wanted: each of these registers set on every way that leads here // see docs/VERIFIER.md, 5 UnsetRead //
    no instruction before it sets r0: set it first
run two.img g --explain
=> 1 call refused: 1 NoMethod // wanted: a method of the class; `radoscls verify` lists them
run two.img f --input 0 --explain
=> 1 input is not hex // wanted: --input in hexadecimal, two digits a byte
verify cut --explain
=> 1 line 1: 1 Word // line 1: before // a label ends with a colon: write `before:` //
    wanted: first an instruction's word, or a label `name:`, `.method` or `.rules` // see docs/ASSEMBLY.md, 1 Word
pack out f:r:0:0:cut --explain
=> 1 image refused after 0 methods: 1 Truncated // method f, IN 0, OUT 0, cut //
    it ends within a field: it was cut, or is none; code has 8 bytes a slot
pack out f:r:0:0:code F:r:0:5000:code --explain
=> 1 image refused after 1 methods: 7 Name // method F, IN 0, OUT 5000, code //
    a method's name has 1 to 64 of a-z, 0-9 and _
pack out f:r:0:5000:code --explain
=> 1 image refused after 0 methods: 10 Limit // method f, IN 0, OUT 5000, code //
    1 to 32 methods of 1 to 4096 slots; IN, OUT to 4096, by rule set 3 65535; 64 heads, budget to 1048576
"""

# Honest mistakes: texts, what is explained of each, and the change that it leads to, which is accepted.
MISTAKES = r"""
.method f r 0 64 / mov r6, r3 / mov r1, r10 / add r1, -64 / mov r2, 0 / mov r3, r1 / mov r4, 64 / call 12 /
    mov r1, r10 / add r1, -64 / mov r2, r0 / mov r3, r6 / mov r4, 64 / call 9 / end: / mov r0, 0 / exit
=> 1 refused method 0 slot 12: 10 Bounds // method f, IN 0, OUT 64 // call 9 // r1 = stack + 448 //
    r2 = any number // r3 = output + 0 // r4 = 64 // wanted: a pointer, and all of the bytes within its region //
    see docs/VERIFIER.md, 10 Bounds // `call 9` is `map_get(key, length, to, room)`: r2 is `length` //
    r2 may be 18446744073709551615: at most 64 bytes from stack + 448; `jgt r2, 64, ..` before it // line 14: call 9
mended by call 9 / end => jgt r2, 64, end / call 9 / end
.method f r 8 64 / mov r4, 64 / call 9 / mov r1, r0 / call 13 / end: / exit
=> 1 refused method 0 slot 3: 13 HelperArgument // method f, IN 8, OUT 64 // call 13 // r1 = any number //
    wanted: the arguments in the order of the helper, and an output length of at most OUT //
    see docs/VERIFIER.md, 13 HelperArgument // `call 13` is `out_len(length)`: r1 is `length` //
    r1 may be 18446744073709551615: at most OUT, 64; `jgt r1, 64, ..` before it // line 5: call 13
mended by call 13 => jgt r1, 64, end / call 13
.method f r 0 0 / lddw r1, 0x0 / mov r2, 5 / mov r3, r10 / add r3, -8 / mov r4, 8 / call 6 / exit
=> 1 refused method 0 slot 6: 13 HelperArgument // method f, IN 0, OUT 0 // call 6 // r1 = 0 // r2 = 5 //
    r3 = stack + 504 // r4 = 8 //
    wanted: the arguments in the order of the helper, and an output length of at most OUT //
    see docs/VERIFIER.md, 13 HelperArgument // `call 6` is `getxattr(name, length, to, room)`: r1 is `name` //
    r1 takes a pointer, made of r1 (input), r3 (output) or r10 (stack): a string is written to the stack, as `stdw
    [r10-8], 7` and `mov r1, r10`, `add r1, -8` //
    line 7: call 6
mended by lddw r1, 0x0 => stdw [r10-16], 0x6e756f63 / stb [r10-12], 0x74 / mov r1, r10 / add r1, -16
.method f rw 8 64 / ldxdw r6, [r1+0] / jslt r6, 0, end / mov r2, r3 / mov r1, 0 / mov r3, r6 / call 3 / end: /
    mov r0, 0 / exit
=> 1 refused method 0 slot 5: 10 Bounds // method f, IN 8, OUT 64 // call 3 // r1 = 0 // r2 = output + 0 //
    r3 = 0..9223372036854775807 // wanted: a pointer, and all of the bytes within its region //
    see docs/VERIFIER.md, 10 Bounds // `call 3` is `write(offset, bytes, length)`: r3 is `length` //
    r3 may be 9223372036854775807: at most 64 bytes from output + 0; `jgt r3, 64, ..` before it // line 7: call 3
mended by call 3 => jgt r3, 64, end / call 3
.method f r 0 64 / mov r6, r3 / mov r1, 0 / mov r2, r3 / mov r3, 64 / call 2 / jslt r0, 0, end / add r6, r0 /
    stb [r6+0], 1 / end: / mov r0, 0 / exit
=> 1 refused method 0 slot 7: 10 Bounds // method f, IN 0, OUT 64 // stb [r6+0], 1 //
    r6 = output + 0..9223372036854775807 // wanted: a pointer, and all of the bytes within its region //
    see docs/VERIFIER.md, 10 Bounds //
    it may be 1 bytes from output + 9223372036854775807 on, of 64: from output + 63 on at most //
    bound what is added to r6, by `jgt` or `and` before the `add` // line 9: stb [r6+0], 1
mended by jslt r0, 0, end => jgt r0, 63, end
.method f r 0 0 / call 16 / mov r0, 0 / exit
=> 1 refused method 0 slot 0: 12 UnknownHelper // method f, IN 0, OUT 0 // call 16 //
    wanted: the id of a helper, 1 to 15 // see docs/VERIFIER.md, 12 UnknownHelper //
    the helpers are 1 to 15, and with `.rules 3` to 18; a function of your own is written where it is called //
    line 2: call 16
mended by call 16 => call 15
.rules 3 / .method f r 0 0 / call 19 / mov r0, 0 / exit
=> 1 refused method 0 slot 0: 12 UnknownHelper // method f, IN 0, OUT 0 // call 19 //
    wanted: the id of a helper, 1 to 18 // see docs/VERIFIER.md, 12 UnknownHelper //
    the helpers are 1 to 18; a function of your own is written where it is called // line 3: call 19
mended by call 19 => call 15
.method f r 0 0 / call local +1 / exit / mov r0, 0 / exit
=> 1 refused method 0 slot 0: 4 LocalCall // method f, IN 0, OUT 0 // call local +1 //
    wanted: no call within the program // see docs/VERIFIER.md, 4 LocalCall //
    a method is one piece of code: write the function's code there; in C make it `static inline
    __attribute__((always_inline))` //
    line 2: call local +1
mended by call local +1 / exit / mov => mov
.rules 2 / .method f r 0 8 / stxdw [r10-12], r3 / ldxdw r3, [r10-12] / ldxb r0, [r3+0] / exit
=> 1 refused method 0 slot 0: 9 PointerStored // method f, IN 0, OUT 8 // stxdw [r10-12], r3 //
    r3 = output + 0 // r10 = stack + 512 //
    wanted: a number to store, or a pointer whole, in the stack, at a multiple of 8 //
    see docs/VERIFIER.md, 9 PointerStored //
    [r10-16] = 0 // [r10-8] = 0 //
    a pointer is stored whole: by `stxdw`, in the stack, at one place that is a multiple of 8, as [r10-8] or [r10-16]
    //
    line 3: stxdw [r10-12], r3
mended by -12 => -16
.rules 2 / .method f r 0 8 / stxdw [r10-8], r3 / stw [r10-8], 0 / ldxdw r0, [r10-8] / exit
=> 1 refused method 0 slot 2: 5 UnsetRead // method f, IN 0, OUT 8 // ldxdw r0, [r10-8] // r10 = stack + 512 //
    wanted: each of these registers set on every way that leads here // see docs/VERIFIER.md, 5 UnsetRead //
    [r10-8] = unset //
    an unset slot had a part of a pointer overwritten, or ways set it unlike: store it whole before, 8 bytes at a
    multiple of 8, as `stxdw [r10-8], r0` //
    line 5: ldxdw r0, [r10-8]
mended by stw [r10-8], 0 => stdw [r10-8], 0
.rules 2 / .method f r 0 8 / stxdw [r10-8], r3 / ldxw r0, [r10-8] / exit
=> 1 refused method 0 slot 1: 17 PointerBytes // method f, IN 0, OUT 8 // ldxw r0, [r10-8] //
    r10 = stack + 512 // wanted: a stored pointer loaded whole, 8 bytes from its place, and given to no helper //
    see docs/VERIFIER.md, 17 PointerBytes // [r10-8] = output + 0 // load the pointer whole: `ldxdw` of its slot //
    line 4: ldxw r0, [r10-8]
mended by ldxw r0, [r10-8] => ldxdw r3, [r10-8] / ldxb r0, [r3+0]
.rules 3 / .method f r 8 16 / ldxdw r4, [r1+0] / mov r0, 0 / jsgt32 r4, 15, end / jslt32 r4, 0, end / add r3, r4 /
    stb [r3+0], 1 / end: / exit
=> 1 refused method 0 slot 5: 10 Bounds // method f, IN 8, OUT 16 // stb [r3+0], 1 //
    r3 = output + any number, low half 0..15 // wanted: a pointer, and all of the bytes within its region //
    see docs/VERIFIER.md, 10 Bounds //
    it may be 1 bytes from output + 18446744073709551615 on, of 16: from output + 15 on at most //
    bound what is added to r3, by `jgt` or `and` before the `add` // line 8: stb [r3+0], 1
mended by add r3 => mov32 r4, r4 / add r3
.rules 3 / .method f r 8 8 / ldxdw r4, [r1+0] / mov r6, r4 / mov r0, 0 / jgt r6, 9, end / call 9 / end: / exit
=> 1 refused method 0 slot 4: 10 Bounds // method f, IN 8, OUT 8 // call 9 // r1 = input + 0 // r2 = 0..8 //
    r3 = output + 0 // r4 = 0..9, a copy of r6 // wanted: a pointer, and all of the bytes within its region //
    see docs/VERIFIER.md, 10 Bounds // `call 9` is `map_get(key, length, to, room)`: r4 is `room` //
    r4 may be 9: at most 8 bytes from output + 0; `jgt r4, 8, ..` before it // line 7: call 9
mended by jgt r6, 9 => jgt r6, 8
.method f r 8 8 / jeq r2, 0, none / mov r4, r3 / ja end / none: / mov r4, 0 / end: / mov r0, r4 / exit
=> 1 refused method 0 slot 4: 5 UnsetRead // method f, IN 8, OUT 8 // mov r0, r4 // r4 = unset //
    wanted: each of these registers set on every way that leads here // see docs/VERIFIER.md, 5 UnsetRead //
    each way that leads here sets r4, but not alike: one to a number and one to a pointer, or to pointers to two
    regions //
    line 8: mov r0, r4
mended by mov r4, r3 => mov r4, 1
.method f r 8 8 / jeq r2, 0, end / mov r4, 1 / end: / mov r0, r4 / exit
=> 1 refused method 0 slot 2: 5 UnsetRead // method f, IN 8, OUT 8 // mov r0, r4 // r4 = unset //
    wanted: each of these registers set on every way that leads here // see docs/VERIFIER.md, 5 UnsetRead //
    r4 is set before, but not on each way that leads here: one doesn't set it, or calls a helper after that, which
    unsets r1 to r5 //
    line 5: mov r0, r4
mended by jeq r2 => mov r4, 0 / jeq r2
.method f r 8 8 / mov r6, r2 / mov r4, 1 / jeq r6, 0, end / mov r1, 0 / call 13 / mov r6, 0 / end: /
    mov r0, r4 / exit
=> 1 refused method 0 slot 6: 5 UnsetRead // method f, IN 8, OUT 8 // mov r0, r4 // r4 = unset //
    wanted: each of these registers set on every way that leads here // see docs/VERIFIER.md, 5 UnsetRead //
    a call unsets r1 to r5: keep r4 in r6 to r9 before it // line 9: mov r0, r4
mended by r4 => r7
.method f r 0 4 / stw [r3+0], 7 / mov r1, 8 / call 13 / exit
=> 1 refused method 0 slot 2: 13 HelperArgument // method f, IN 0, OUT 4 // call 13 // r1 = 8 //
    wanted: the arguments in the order of the helper, and an output length of at most OUT //
    see docs/VERIFIER.md, 13 HelperArgument // `call 13` is `out_len(length)`: r1 is `length` //
    r1 is 8: at most OUT, 4; a smaller number, or OUT is at least 8 // line 4: call 13
mended by mov r1, 8 => mov r1, 4
.method f r 0 4 / stw [r3+0], 7 / mov r1, 8 / call 13 / exit
=> 1 refused method 0 slot 2: 13 HelperArgument // method f, IN 0, OUT 4 // call 13 // r1 = 8 //
    wanted: the arguments in the order of the helper, and an output length of at most OUT //
    see docs/VERIFIER.md, 13 HelperArgument // `call 13` is `out_len(length)`: r1 is `length` //
    r1 is 8: at most OUT, 4; a smaller number, or OUT is at least 8 // line 4: call 13
mended by r 0 4 => r 0 8
.method f r 0 0 / call 15 / mov r1, r0 / call 13 / mov r0, 0 / exit
=> 1 refused method 0 slot 2: 13 HelperArgument // method f, IN 0, OUT 0 // call 13 // r1 = any number //
    wanted: the arguments in the order of the helper, and an output length of at most OUT //
    see docs/VERIFIER.md, 13 HelperArgument // `call 13` is `out_len(length)`: r1 is `length` //
    r1 may be 18446744073709551615: at most OUT, 0; a greater OUT // line 4: call 13
mended by r 0 0 / call 15 => r 0 8 / call 15 / and r0, 7
.method f r 8 64 / mov r4, 100 / call 9 / mov r0, 0 / exit
=> 1 refused method 0 slot 1: 10 Bounds // method f, IN 8, OUT 64 // call 9 // r1 = input + 0 // r2 = 0..8 //
    r3 = output + 0 // r4 = 100 // wanted: a pointer, and all of the bytes within its region //
    see docs/VERIFIER.md, 10 Bounds //
    `call 9` is `map_get(key, length, to, room)`: r4 is `room` //
    r4 is 100: at most 64 bytes from output + 0; a smaller number, or OUT is at least 100 // line 3: call 9
mended by mov r4, 100 => mov r4, 64
.method f r 8 64 / add r3, 32 / mov r4, 64 / call 9 / mov r0, 0 / exit
=> 1 refused method 0 slot 2: 10 Bounds // method f, IN 8, OUT 64 // call 9 // r1 = input + 0 // r2 = 0..8 //
    r3 = output + 32 // r4 = 64 // wanted: a pointer, and all of the bytes within its region //
    see docs/VERIFIER.md, 10 Bounds //
    `call 9` is `map_get(key, length, to, room)`: r4 is `room` //
    r4 is 64: at most 32 bytes from output + 32; a smaller number, or OUT is at least 96 // line 4: call 9
mended by r 8 64 => r 8 96
.method f rw 0 0 / mov r1, r10 / mov r2, 8 / mov r3, r10 / add r3, -8 / mov r4, 8 / call 10 / exit
=> 1 refused method 0 slot 5: 10 Bounds // method f, IN 0, OUT 0 // call 10 // r1 = stack + 512 // r2 = 8 //
    r3 = stack + 504 // r4 = 8 // wanted: a pointer, and all of the bytes within its region //
    see docs/VERIFIER.md, 10 Bounds //
    `call 10` is `map_set(key, length, value, length)`: r2 is `length` //
    r2 is 8: at most 0 bytes from stack + 512; a smaller number, or a lower place // line 7: call 10
mended by mov r2, 8 => add r1, -8 / mov r2, 8
.method f r 8 0 / mov r3, r1 / mov r4, 8 / call 9 / mov r0, 0 / exit
=> 1 refused method 0 slot 2: 11 ReadOnlyRegion // method f, IN 8, OUT 0 // call 9 // r1 = input + 0 // r2 = 0..8 //
    r3 = input + 0 // r4 = 8 // wanted: a pointer to the output or the stack //
    see docs/VERIFIER.md, 11 ReadOnlyRegion // `call 9` is `map_get(key, length, to, room)`: r3 is `to` //
    the call writes where r3 points, and the input is read only: give it the output or the stack // line 4: call 9
mended by mov r3, r1 => mov r3, r10 / add r3, -8
.method f r 8 64 / add r3, 70 / mov r4, 8 / call 9 / mov r0, 0 / exit
=> 1 refused method 0 slot 2: 10 Bounds // method f, IN 8, OUT 64 // call 9 // r1 = input + 0 // r2 = 0..8 //
    r3 = output + 70 // r4 = 8 // wanted: a pointer, and all of the bytes within its region //
    see docs/VERIFIER.md, 10 Bounds //
    `call 9` is `map_get(key, length, to, room)`: r3 is `to` //
    r3 may be output + 70: at most output + 56 for the range // a lower place, or a greater OUT // line 4: call 9
mended by add r3, 70 => add r3, 56
.method f r 8 64 / add r3, -8 / mov r4, 8 / call 9 / mov r0, 0 / exit
=> 1 refused method 0 slot 2: 10 Bounds // method f, IN 8, OUT 64 // call 9 // r1 = input + 0 // r2 = 0..8 //
    r3 = output - 8 // r4 = 8 // wanted: a pointer, and all of the bytes within its region //
    see docs/VERIFIER.md, 10 Bounds //
    `call 9` is `map_get(key, length, to, room)`: r3 is `to` //
    r3 may be output - 8: at least output + 0 for the range // a higher place: output + 0 is its first byte //
    line 4: call 9
mended by add r3, -8 => add r3, 8
.method f r 8 0 / ldxb r0, [r1-1] / exit
=> 1 refused method 0 slot 0: 10 Bounds // method f, IN 8, OUT 0 // ldxb r0, [r1-1] // r1 = input + 0 //
    wanted: a pointer, and all of the bytes within its region // see docs/VERIFIER.md, 10 Bounds //
    it may be 1 bytes from input - 1 on: from input + 0 on at least // a higher place: input + 0 is its first byte //
    line 2: ldxb r0, [r1-1]
mended by r1-1 => r1+1
.method f r 8 0 / stxdw [r10-520], r2 / mov r0, 0 / exit
=> 1 refused method 0 slot 0: 10 Bounds // method f, IN 8, OUT 0 // stxdw [r10-520], r2 // r2 = 0..8 //
    r10 = stack + 512 // wanted: a pointer, and all of the bytes within its region // see docs/VERIFIER.md, 10 Bounds //
    it may be 8 bytes from stack - 8 on: from stack + 0 on at least //
    a higher place: the stack is [r10-512] to [r10-1] // line 2: stxdw [r10-520], r2
mended by -520 => -512
.method f r 0 8 / add r3, -1 / stb [r3+0], 1 / mov r0, 0 / exit
=> 1 refused method 0 slot 1: 10 Bounds // method f, IN 0, OUT 8 // stb [r3+0], 1 // r3 = output - 1 //
    wanted: a pointer, and all of the bytes within its region // see docs/VERIFIER.md, 10 Bounds //
    it may be 1 bytes from output - 1 on: from output + 0 on at least // a higher place: output + 0 is its first byte //
    line 3: stb [r3+0], 1
mended by add r3, -1 => add r3, 1
.method f r 4 0 / ldxdw r0, [r1+0] / exit
=> 1 refused method 0 slot 0: 10 Bounds // method f, IN 4, OUT 0 // ldxdw r0, [r1+0] // r1 = input + 0 //
    wanted: a pointer, and all of the bytes within its region // see docs/VERIFIER.md, 10 Bounds //
    it may be 8 bytes from input + 0 on, of 4: too few // IN is at least 8 // line 2: ldxdw r0, [r1+0]
mended by r 4 0 => r 8 0
.method f r 0 0 / stw [r3+4], 1 / mov r0, 0 / exit
=> 1 refused method 0 slot 0: 10 Bounds // method f, IN 0, OUT 0 // stw [r3+4], 1 // r3 = output + 0 //
    wanted: a pointer, and all of the bytes within its region // see docs/VERIFIER.md, 10 Bounds //
    it may be 4 bytes from output + 4 on, of 0: too few // OUT is at least 8 // line 2: stw [r3+4], 1
mended by r 0 0 => r 0 8
.method f r 8 16 / mov r0, 0 / and r2, 7 / add r3, 4 / sub r3, r2 / stb [r3+0], 1 / end: / exit
=> 1 refused method 0 slot 4: 10 Bounds // method f, IN 8, OUT 16 // stb [r3+0], 1 //
    r3 = output + any number, signed -3..4 // wanted: a pointer, and all of the bytes within its region //
    see docs/VERIFIER.md, 10 Bounds //
    it may be 1 bytes from output - 3 on: from output + 0 on at least //
    bound what moves r3: no more is subtracted than was added, by `jgt` before the `sub`, and no negative number is
    added, by `jslt` before the `add` //
    line 6: stb [r3+0], 1
mended by and r2, 7 => jgt r2, 4, end
.method f r 0 0 / jeq r2, 1, end / mov r0, 0 / exit / end:
=> 1 refused method 0 slot 0: 2 Target // method f, IN 0, OUT 0 // jeq r2, 1, +2 // r2 = 0 //
    wanted: a jump to a slot at which an instruction begins // see docs/VERIFIER.md, 2 Target //
    the target is slot 3, and the last one is 2: `exit` at the end, or a nearer label // line 2: jeq r2, 1, end
mended by end: => end: / mov r0, 1 / exit
.method f r 0 0 / call 15 / mov r0, r4 / exit
=> 1 refused method 0 slot 1: 5 UnsetRead // method f, IN 0, OUT 0 // mov r0, r4 // r4 = unset //
    wanted: each of these registers set on every way that leads here // see docs/VERIFIER.md, 5 UnsetRead //
    no instruction before it sets r4: set it first // line 3: mov r0, r4
mended by mov r0, r4 => mov r4, 1 / mov r0, r4
.method f r 8 0 / jeq r2, 0, other / mov r4, 1 / mov r0, r4 / exit / other: / mov r0, r4 / exit
=> 1 refused method 0 slot 4: 5 UnsetRead // method f, IN 8, OUT 0 // mov r0, r4 // r4 = unset //
    wanted: each of these registers set on every way that leads here // see docs/VERIFIER.md, 5 UnsetRead //
    no way that leads here sets r4: set it on each, or before they part // line 7: mov r0, r4
mended by jeq r2 => mov r4, 0 / jeq r2
.method f r 8 0 / mov r0, 0 / top: / add r0, 1 / jlt r0, r2, top / exit
=> 1 refused method 0 slot 2: 1 Backward // method f, IN 8, OUT 0 // jlt r0, r2, -2 // r0 = 1 // r2 = 0..8 // wanted:
    a jump forward: the distance is at least 0 // see docs/VERIFIER.md, 1 Backward // jumps go forward: write a loop
    out, with an exit where it may end early // line 5: jlt r0, r2, top
mended by top: / add r0, 1 / jlt r0, r2, top => add r0, 1 / jge r0, r2, end / add r0, 1 / end:
.method f r 8 0 / ja end / out: / exit / end: / mov r0, 0 / ja out
=> 1 refused method 0 slot 3: 1 Backward // method f, IN 8, OUT 0 // ja -3 // wanted: a jump forward: the distance is
    at least 0 // see docs/VERIFIER.md, 1 Backward // jumps go forward: write a loop out, with an exit where it may
    end early // line 7: ja out
mended by ja out => exit
.method f r 8 0 / mov r0, 0 / jeq r2, 0, +1 / lddw r0, 0x100000000 / exit
=> 1 refused method 0 slot 1: 2 Target // method f, IN 8, OUT 0 // jeq r2, 0, +1 // r2 = 0..8 // wanted: a jump to a
    slot at which an instruction begins // see docs/VERIFIER.md, 2 Target // a wide load takes two slots: jump to a
    label, which counts right // line 3: jeq r2, 0, +1
mended by +1 => +2
.method f r 8 0 / mov r0, 0 / jeq r2, 0, end / mov r0, 1 / exit / end:
=> 1 refused method 0 slot 1: 2 Target // method f, IN 8, OUT 0 // jeq r2, 0, +2 // r2 = 0..8 // wanted: a jump to a
    slot at which an instruction begins // see docs/VERIFIER.md, 2 Target // the target is slot 4, and the last one is
    3: `exit` at the end, or a nearer label // line 3: jeq r2, 0, end
mended by end: => end: / exit
.method f r 8 0 / mov r0, 0 / jeq r2, 0, end / exit / end: / mov r0, -22
=> 1 refused method 0 slot 3: 3 FallsOff // method f, IN 8, OUT 0 // mov r0, -22 // wanted: exit or a jump as the last
    instruction // see docs/VERIFIER.md, 3 FallsOff // `exit` after it // line 6: mov r0, -22
mended by -22 => -22 / exit
.method f r 8 0 / mov r0, 0 / jne r2, 8, bad / exit / bad: / stb [r10-1], 1
=> 1 refused method 0 slot 3: 3 FallsOff // method f, IN 8, OUT 0 // stb [r10-1], 1 // r10 = stack + 512 // wanted:
    exit or a jump as the last instruction // see docs/VERIFIER.md, 3 FallsOff // `exit` after it // line 6: stb
    [r10-1], 1
mended by [r10-1], 1 => [r10-1], 1 / exit
.method f r 8 0 / mov r6, r1 / call local +1 / exit / ldxb r0, [r6+0] / exit
=> 1 refused method 0 slot 1: 4 LocalCall // method f, IN 8, OUT 0 // call local +1 // wanted: no call within the
    program // see docs/VERIFIER.md, 4 LocalCall // a method is one piece of code: write the function's code there; in
    C make it `static inline __attribute__((always_inline))` // line 3: call local +1
mended by call local +1 / exit / ldxb => ldxb
.method f r 8 0 / mov r10, r1 / ldxb r0, [r10+0] / exit
=> 1 refused method 0 slot 0: 6 WritesR10 // method f, IN 8, OUT 0 // mov r10, r1 // r1 = input + 0 // wanted: another
    destination than register 10 // see docs/VERIFIER.md, 6 WritesR10 // change a copy: `mov r2, r10`, then r2 // line
    2: mov r10, r1
mended by r10 => r2
.method f r 8 0 / sub r10, 8 / stxdw [r10+0], r2 / mov r0, 0 / exit
=> 1 refused method 0 slot 0: 6 WritesR10 // method f, IN 8, OUT 0 // sub r10, 8 // r10 = stack + 512 // wanted:
    another destination than register 10 // see docs/VERIFIER.md, 6 WritesR10 // change a copy: `mov r2, r10`, then r2
    // line 2: sub r10, 8
mended by sub r10, 8 / stxdw [r10+0] => mov r3, r10 / sub r3, 8 / stxdw [r3+0]
.method f r 8 0 / ldxdw r10, [r1+0] / mov r0, r10 / exit
=> 1 refused method 0 slot 0: 6 WritesR10 // method f, IN 8, OUT 0 // ldxdw r10, [r1+0] // r1 = input + 0 // wanted:
    another destination than register 10 // see docs/VERIFIER.md, 6 WritesR10 // change a copy: `mov r2, r10`, then r2
    // line 2: ldxdw r10, [r1+0]
mended by r10 => r2
.method f r 16 0 / mov r4, r1 / mul r4, 2 / ldxb r0, [r4+0] / exit
=> 1 refused method 0 slot 1: 7 PointerArithmetic // method f, IN 16, OUT 0 // mul r4, 2 // r4 = input + 0 // wanted:
    of a pointer a copy, or a number added or subtracted, in 64 bits // see docs/VERIFIER.md, 7 PointerArithmetic //
    r4 is a pointer: compute in numbers, and add the sum to it last, in 64 bits; copy it by `mov` // line 3: mul r4, 2
mended by mov r4, r1 / mul r4, 2 => and r2, 7 / mov r4, r2 / mul r4, 2 / add r4, r1
.method f r 8 0 / mov32 r4, r1 / ldxb r0, [r4+0] / exit
=> 1 refused method 0 slot 0: 7 PointerArithmetic // method f, IN 8, OUT 0 // mov32 r4, r1 // r1 = input + 0 //
    wanted: of a pointer a copy, or a number added or subtracted, in 64 bits // see docs/VERIFIER.md, 7
    PointerArithmetic // r1 is a pointer: compute in numbers, and add the sum to it last, in 64 bits; copy it by `mov`
    // line 2: mov32 r4, r1
mended by mov32 => mov
.method f r 8 0 / add32 r1, 4 / ldxb r0, [r1+0] / exit
=> 1 refused method 0 slot 0: 7 PointerArithmetic // method f, IN 8, OUT 0 // add32 r1, 4 // r1 = input + 0 // wanted:
    of a pointer a copy, or a number added or subtracted, in 64 bits // see docs/VERIFIER.md, 7 PointerArithmetic //
    r1 is a pointer: compute in numbers, and add the sum to it last, in 64 bits; copy it by `mov` // line 2: add32 r1,
    4
mended by add32 => add
.method f r 8 0 / mov r4, r1 / add r4, r2 / sub r4, r1 / mov r0, r4 / exit
=> 1 refused method 0 slot 2: 7 PointerArithmetic // method f, IN 8, OUT 0 // sub r4, r1 // r1 = input + 0 // r4 =
    input + 0..8 // wanted: of a pointer a copy, or a number added or subtracted, in 64 bits // see docs/VERIFIER.md,
    7 PointerArithmetic // r1 is a pointer: compute in numbers, and add the sum to it last, in 64 bits; copy it by
    `mov` // line 4: sub r4, r1
mended by mov r4, r1 / add r4, r2 / sub r4, r1 => mov r4, r2
.method f r 8 8 / mov r0, 0 / jge r1, r3, end / mov r0, 1 / end: / exit
=> 1 refused method 0 slot 1: 8 PointerCompare // method f, IN 8, OUT 8 // jge r1, r3, +1 // r1 = input + 0 // r3 =
    output + 0 // wanted: numbers on both sides // see docs/VERIFIER.md, 8 PointerCompare // r1 is a pointer, which is
    never null: compare a length, a place or an answer // line 3: jge r1, r3, end
mended by r1, r3 => r2, 8
.method f r 8 8 / mov r0, 0 / jne r3, 0, end / mov r0, -22 / end: / exit
=> 1 refused method 0 slot 1: 8 PointerCompare // method f, IN 8, OUT 8 // jne r3, 0, +1 // r3 = output + 0 // wanted:
    numbers on both sides // see docs/VERIFIER.md, 8 PointerCompare // r3 is a pointer, which is never null: compare a
    length, a place or an answer // line 3: jne r3, 0, end
mended by r3, 0 => r2, 0
.method f r 8 0 / mov r4, r1 / add r4, r2 / mov r0, 0 / jeq r4, r1, end / mov r0, 1 / end: / exit
=> 1 refused method 0 slot 3: 8 PointerCompare // method f, IN 8, OUT 0 // jeq r4, r1, +1 // r1 = input + 0 // r4 =
    input + 0..8 // wanted: numbers on both sides // see docs/VERIFIER.md, 8 PointerCompare // r1 is a pointer, which
    is never null: compare a length, a place or an answer // line 5: jeq r4, r1, end
mended by jeq r4, r1 => jeq r2, 0
.method f r 8 0 / stxdw [r10-8], r1 / mov r0, 0 / exit
=> 1 refused method 0 slot 0: 9 PointerStored // method f, IN 8, OUT 0 // stxdw [r10-8], r1 // r1 = input + 0 // r10 =
    stack + 512 // wanted: a number to store // see docs/VERIFIER.md, 9 PointerStored // keep it in r6 to r9; or begin
    the class with `.rules 2`, where a pointer may be stored whole at a multiple of 8, as `stxdw [r10-8], r1` // line
    2: stxdw [r10-8], r1
mended by .method => .rules 2 / .method
.method f r 8 8 / stxdw [r3+0], r1 / mov r0, 0 / exit
=> 1 refused method 0 slot 0: 9 PointerStored // method f, IN 8, OUT 8 // stxdw [r3+0], r1 // r1 = input + 0 // r3 =
    output + 0 // wanted: a number to store // see docs/VERIFIER.md, 9 PointerStored // keep it in r6 to r9; or begin
    the class with `.rules 2`, where a pointer may be stored whole at a multiple of 8, as `stxdw [r10-8], r1` // line
    2: stxdw [r3+0], r1
mended by [r3+0], r1 => [r3+0], r2
.method f r 8 0 / stb [r1+0], 1 / mov r0, 0 / exit
=> 1 refused method 0 slot 0: 11 ReadOnlyRegion // method f, IN 8, OUT 0 // stb [r1+0], 1 // r1 = input + 0 // wanted:
    a pointer to the output or the stack // see docs/VERIFIER.md, 11 ReadOnlyRegion // r1 points to the input, which
    is read only: store to the output or the stack // line 2: stb [r1+0], 1
mended by [r1+0] => [r10-1]
.method f r 8 0 / mov r2, r1 / mov r1, 0 / mov r3, 8 / call 2 / exit
=> 1 refused method 0 slot 3: 11 ReadOnlyRegion // method f, IN 8, OUT 0 // call 2 // r1 = 0 // r2 = input + 0 // r3 =
    8 // wanted: a pointer to the output or the stack // see docs/VERIFIER.md, 11 ReadOnlyRegion // `call 2` is
    `read(offset, to, room)`: r2 is `to` // the call writes where r2 points, and the input is read only: give it the
    output or the stack // line 5: call 2
mended by mov r2, r1 => mov r2, r10 / add r2, -8
.method f r 8 0 / ldxb r0, [r2+0] / exit
=> 1 refused method 0 slot 0: 10 Bounds // method f, IN 8, OUT 0 // ldxb r0, [r2+0] // r2 = 0..8 // wanted: a pointer,
    and all of the bytes within its region // see docs/VERIFIER.md, 10 Bounds // r2 is a number: a place is what r1
    (input), r3 (output) or r10 (stack) was at first, plus a number; a string is written to the stack // line 2: ldxb
    r0, [r2+0]
mended by ldxb r0, [r2+0] => and r2, 7 / add r1, r2 / ldxb r0, [r1+0]
.method f r 0 0 / mov r1, 5 / call 0 / exit
=> 1 refused method 0 slot 1: 12 UnknownHelper // method f, IN 0, OUT 0 // call 0 // wanted: the id of a helper, 1 to
    15 // see docs/VERIFIER.md, 12 UnknownHelper // the helpers are 1 to 15, and with `.rules 3` to 18; a function of
    your own is written where it is called // line 3: call 0
mended by call 0 => call 15
.method f r 0 8 / stdw [r10-8], 5 / mov r1, 0 / mov r2, r10 / add r2, -8 / mov r3, 8 / call 3 / exit
=> 1 refused method 0 slot 5: 14 WriteHelperInReader // method f, IN 0, OUT 8 // call 3 // r1 = 0 // r2 = stack + 504
    // r3 = 8 // wanted: flags w or rw // see docs/VERIFIER.md, 14 WriteHelperInReader // `call 3` may change the
    object: give the method the flags `rw` // line 7: call 3
mended by f r => f rw
.method f r 0 0 / call 5 / exit
=> 1 refused method 0 slot 0: 14 WriteHelperInReader // method f, IN 0, OUT 0 // call 5 // wanted: flags w or rw //
    see docs/VERIFIER.md, 14 WriteHelperInReader // `call 5` may change the object: give the method the flags `rw` //
    line 2: call 5
mended by f r 0 0 => f rw 0 0
.method f r 8 0 / mov r0, r1 / add r0, r2 / exit
=> 1 refused method 0 slot 2: 15 ReturnsPointer // method f, IN 8, OUT 0 // exit // r0 = input + 0..8 // wanted: a
    number in register 0 // see docs/VERIFIER.md, 15 ReturnsPointer // `mov r0, 0` before it, or another number;
    output goes by `call 13` // line 4: exit
mended by add r0, r2 => mov r0, r2
.method f r 0 8 / stdw [r3+0], 5 / mov r0, r3 / exit
=> 1 refused method 0 slot 2: 15 ReturnsPointer // method f, IN 0, OUT 8 // exit // r0 = output + 0 // wanted: a
    number in register 0 // see docs/VERIFIER.md, 15 ReturnsPointer // `mov r0, 0` before it, or another number;
    output goes by `call 13` // line 4: exit
mended by mov r0, r3 => mov r1, 8 / call 13 / mov r0, 0
.method f r 8 0 / mov r0, r10 / jeq r2, 0, end / mov r0, 0 / end: / exit
=> 1 refused method 0 slot 3: 5 UnsetRead // method f, IN 8, OUT 0 // exit // r0 = unset // wanted: each of these
    registers set on every way that leads here // see docs/VERIFIER.md, 5 UnsetRead // each way that leads here sets
    r0, but not alike: one to a number and one to a pointer, or to pointers to two regions // line 6: exit
mended by mov r0, r10 => mov r0, -22
.rules 2 / .method f r 0 8 / mov r0, 0 / stxdw [r10-8], r3 / ldxw r4, [r10-8] / exit
=> 1 refused method 0 slot 2: 17 PointerBytes // method f, IN 0, OUT 8 // ldxw r4, [r10-8] // r10 = stack + 512 //
    wanted: a stored pointer loaded whole, 8 bytes from its place, and given to no helper // see docs/VERIFIER.md, 17
    PointerBytes // [r10-8] = output + 0 // load the pointer whole: `ldxdw` of its slot // line 5: ldxw r4, [r10-8]
mended by ldxw => ldxdw
.rules 2 / .method f r 8 0 / stxdw [r10-8], r1 / stb [r10-8], 0 / ldxdw r4, [r10-8] / mov r0, 0 / exit
=> 1 refused method 0 slot 2: 5 UnsetRead // method f, IN 8, OUT 0 // ldxdw r4, [r10-8] // r10 = stack + 512 //
    wanted: each of these registers set on every way that leads here // see docs/VERIFIER.md, 5 UnsetRead // [r10-8] =
    unset // an unset slot had a part of a pointer overwritten, or ways set it unlike: store it whole before, 8 bytes
    at a multiple of 8, as `stxdw [r10-8], r0` // line 5: ldxdw r4, [r10-8]
mended by stb [r10-8], 0 => stb [r10-9], 0
"""

# Mistakes in texts, as those of classes: what is said of each, and a text that is accepted.
TEXT_MISTAKES = r"""
.method f r 8 0 / ldxw r0, [r1 + 4] / exit
=> 1 line 2: 2 Operand // line 2: ldxw r0, [r1 + 4] // operand 2, `[r1 + 4]`: no blank stands within it: write
    `[r1+4]` // form: `ldxw r0, [r1+4]` // wanted: the operands of the word, in its form // see docs/ASSEMBLY.md, 2
    Operand
mended by r1 + 4 => r1+4
.method f r 8 0 / ldxw r0, r1 / exit
=> 1 line 2: 2 Operand // line 2: ldxw r0, r1 // operand 2, `r1`: a place in memory stands in brackets, as `[r1+4]`
    // form: `ldxw r0, [r1+4]` // wanted: the operands of the word, in its form // see docs/ASSEMBLY.md, 2 Operand
mended by r0, r1 => r0, [r1+4]
.method f r 8 0 / ldxw r0, 4(r1) / exit
=> 1 line 2: 2 Operand // line 2: ldxw r0, 4(r1) // operand 2, `4(r1)`: a place in memory is written as `[r1+4]`;
    the word tells how many bytes // form: `ldxw r0, [r1+4]` // wanted: the operands of the word, in its form // see
    docs/ASSEMBLY.md, 2 Operand
mended by 4(r1) => [r1+4]
.method f r 8 0 / ldxw r0, [4+r1] / exit
=> 1 line 2: 2 Operand // line 2: ldxw r0, [4+r1] // operand 2, `[4+r1]`: the register stands before the offset, as
    `[r1+4]` // form: `ldxw r0, [r1+4]` // wanted: the operands of the word, in its form // see docs/ASSEMBLY.md, 2
    Operand
mended by 4+r1 => r1+4
.method f r 8 0 / ldxw r0, [r1, 4] / exit
=> 1 line 2: 2 Operand // line 2: ldxw r0, [r1, 4] // within `[` and `]` stand a register and an offset, and no
    comma, as `[r1+4]` // form: `ldxw r0, [r1+4]` // wanted: the operands of the word, in its form // see
    docs/ASSEMBLY.md, 2 Operand
mended by r1, 4 => r1+4
.method f r 8 0 / ldxw r0, [r1+] / exit
=> 1 line 2: 2 Operand // line 2: ldxw r0, [r1+] // operand 2, `[r1+]`: the offset is missing after its sign //
    form: `ldxw r0, [r1+4]` // wanted: the operands of the word, in its form // see docs/ASSEMBLY.md, 2 Operand
mended by r1+ => r1+0
.method f r 8 0 / ldxb r0, [r1+r2] / exit
=> 1 line 2: 2 Operand // line 2: ldxb r0, [r1+r2] // operand 2, `[r1+r2]`: an offset is a number, and alone: add a
    register to a copy of the other one before, by `add` // form: `ldxb r0, [r1+4]` // wanted: the operands of the
    word, in its form // see docs/ASSEMBLY.md, 2 Operand
mended by ldxb r0, [r1+r2] => and r2, 7 / add r1, r2 / ldxb r0, [r1+0]
.method f r 8 0 / ldxb r0, [r1+32768] / exit
=> 1 line 2: 3 Range // line 2: ldxb r0, [r1+32768] // operand 2, `[r1+32768]`: out of range: -32768 to 32767 //
    form: `ldxb r0, [r1+4]` // wanted: a number within its field, 1 to 4096 slots in a method, 1 to 32 methods //
    see docs/ASSEMBLY.md, 3 Range
mended by 32768 => 7
.method f r 8 0 / ldxb r0, [r1+4 / exit
=> 1 line 2: 2 Operand // line 2: ldxb r0, [r1+4 // operand 2, `[r1+4`: within `[` and `]` stand a register and an
    offset, and no comma, as `[r1+4]` // form: `ldxb r0, [r1+4]` // wanted: the operands of the word, in its form //
    see docs/ASSEMBLY.md, 2 Operand
mended by r1+4 => r1+4]
.method f r 0 8 / stxb r2, [r3+0] / mov r0, 0 / exit
=> 1 line 2: 2 Operand // line 2: stxb r2, [r3+0] // operand 1, `r2`: a place in memory stands in brackets, as
    `[r1+4]` // operand 2, `[r3+0]`: no register: these are r0 to r10 // form: `stxb [r10-8], r2` // wanted: the
    operands of the word, in its form // see docs/ASSEMBLY.md, 2 Operand
mended by r2, [r3+0] => [r3+0], r2
.method f r 0 0 / mov r1, 0 / mov r2, r10 / add r2, -8 / mov r3, 8 / call read / exit
=> 1 line 6: 2 Operand // line 6: call read // operand 1, `read`: a helper is written as its number: write `call 2`
    // form: `call 2` // wanted: the operands of the word, in its form // see docs/ASSEMBLY.md, 2 Operand
mended by call read => call 2
.method f r 0 0 / mov r1, 0 / mov r2, r10 / add r2, -8 / mov r3, 8 / call raed / exit
=> 1 line 6: 2 Operand // line 6: call raed // operand 1, `raed`: no number: decimal, or `0x` and hexadecimal
    digits; the nearest helper is `read`: write `call 2` // form: `call 2` // wanted: the operands of the word, in
    its form // see docs/ASSEMBLY.md, 2 Operand
mended by call raed => call 2
.method f r 0 0 / call cls_cxx_stat / mov r0, 0 / exit
=> 1 line 2: 2 Operand // line 2: call cls_cxx_stat // operand 1, `cls_cxx_stat`: a helper is written as its number:
    write `call 1` // form: `call 2` // wanted: the operands of the word, in its form // see docs/ASSEMBLY.md, 2
    Operand
mended by cls_cxx_stat => 1
.method f r 0 0 / mov r0, -EBUSY / exit
=> 1 line 2: 2 Operand // line 2: mov r0, -EBUSY // operand 2, `-EBUSY`: an error is written as its number: write
    `-16` // form: `mov r1, r2` or `mov r1, -5` // wanted: the operands of the word, in its form // see
    docs/ASSEMBLY.md, 2 Operand
mended by -EBUSY => -16
.method f r 0 0 / mov w0, 0 / exit
=> 1 line 2: 2 Operand // line 2: mov w0, 0 // operand 1, `w0`: no register: the word tells that 32 bits are meant,
    as `mov32 r0, 5` // form: `mov r1, r2` or `mov r1, -5` // wanted: the operands of the word, in its form // see
    docs/ASSEMBLY.md, 2 Operand
mended by mov w0 => mov32 r0
.method f r 0 0 / mov r0, 1.5 / exit
=> 1 line 2: 2 Operand // line 2: mov r0, 1.5 // operand 2, `1.5`: numbers are whole: no point // form: `mov r1, r2`
    or `mov r1, -5` // wanted: the operands of the word, in its form // see docs/ASSEMBLY.md, 2 Operand
mended by 1.5 => 1
.method f r 0 0 / mov r0, 0X1F / exit
=> 1 line 2: 2 Operand // line 2: mov r0, 0X1F // operand 2, `0X1F`: a hexadecimal number begins with `0x`, with a
    small x // form: `mov r1, r2` or `mov r1, -5` // wanted: the operands of the word, in its form // see
    docs/ASSEMBLY.md, 2 Operand
mended by 0X1F => 0x1F
.method f r 0 0 / mov r0, 007 / exit
=> 1 line 2: 2 Operand // line 2: mov r0, 007 // operand 2, `007`: a number has no leading zero // form: `mov r1,
    r2` or `mov r1, -5` // wanted: the operands of the word, in its form // see docs/ASSEMBLY.md, 2 Operand
mended by 007 => 7
.method f r 0 0 / mov r0, +7 / exit
=> 1 line 2: 2 Operand // line 2: mov r0, +7 // operand 2, `+7`: no `+` stands before a number here // form: `mov
    r1, r2` or `mov r1, -5` // wanted: the operands of the word, in its form // see docs/ASSEMBLY.md, 2 Operand
mended by +7 => 7
.method f r 0 0 / mov r0, #7 / exit
=> 1 line 2: 2 Operand // line 2: mov r0, #7 // operand 2, `#7`: nothing but a `-` stands before a number // form:
    `mov r1, r2` or `mov r1, -5` // wanted: the operands of the word, in its form // see docs/ASSEMBLY.md, 2 Operand
mended by #7 => 7
.method f r 0 0 / mov r0, -0 / exit
=> 1 line 2: 2 Operand // line 2: mov r0, -0 // operand 2, `-0`: 0 has no `-` // form: `mov r1, r2` or `mov r1, -5`
    // wanted: the operands of the word, in its form // see docs/ASSEMBLY.md, 2 Operand
mended by -0 => 0
.method f r 0 8 / stb [r3+0], 'h' / mov r0, 0 / exit
=> 1 line 2: 2 Operand // line 2: stb [r3+0], 'h' // operand 2, `'h'`: a letter is written as its number: write
    `104` // form: `stb [r10-8], 5` // wanted: the operands of the word, in its form // see docs/ASSEMBLY.md, 2
    Operand
mended by 'h' => 104
.method f r 0 0 / mov r0, 4294967295 / exit
=> 1 line 2: 3 Range // line 2: mov r0, 4294967295 // operand 2, `4294967295`: out of range: -2147483648 to
    2147483647; `lddw r1, ..` takes 64 bits // form: `mov r1, r2` or `mov r1, -5` // wanted: a number within its
    field, 1 to 4096 slots in a method, 1 to 32 methods // see docs/ASSEMBLY.md, 3 Range
mended by mov r0, 4294967295 => lddw r0, 4294967295
.method f r 0 0 / mov r11, 0 / mov r0, 0 / exit
=> 1 line 2: 3 Range // line 2: mov r11, 0 // operand 1, `r11`: registers are r0 to r10 // form: `mov r1, r2` or
    `mov r1, -5` // wanted: a number within its field, 1 to 4096 slots in a method, 1 to 32 methods // see
    docs/ASSEMBLY.md, 3 Range
mended by r11 => r9
.method f r 0 0 / mov r0 0 / exit
=> 1 line 2: 2 Operand // line 2: mov r0 0 // `mov` wants 2 operands, with commas between them; here it has 1 //
    form: `mov r1, r2` or `mov r1, -5` // wanted: the operands of the word, in its form // see docs/ASSEMBLY.md, 2
    Operand
mended by r0 0 => r0, 0
.method f r 8 0 / mov r0, 0 / jeq r2, 0, 1 / mov r0, 1 / exit
=> 1 line 3: 2 Operand // line 3: jeq r2, 0, 1 // operand 3, `1`: a distance or an offset has its sign, as `+3` //
    form: `jeq r2, 15, +3` or `jeq r2, r3, end` // wanted: the operands of the word, in its form // see
    docs/ASSEMBLY.md, 2 Operand
mended by jeq r2, 0, 1 => jeq r2, 0, +1
.method f r 8 0 / mov r0, 0 / jeq r2, 0, .L1 / mov r0, 1 / l1: / exit
=> 1 line 3: 2 Operand // line 3: jeq r2, 0, .L1 // operand 3, `.L1`: no label: one is a letter of a to z, then any
    of a to z, 0 to 9 and _ // form: `jeq r2, 15, +3` or `jeq r2, r3, end` // wanted: the operands of the word, in
    its form // see docs/ASSEMBLY.md, 2 Operand
mended by .L1 => l1
.method f r 8 0 / mov r0, 0 / jeq r2, 0 / exit
=> 1 line 3: 2 Operand // line 3: jeq r2, 0 // `jeq` wants 3 operands, with commas between them; here it has 2 //
    form: `jeq r2, 15, +3` or `jeq r2, r3, end` // wanted: the operands of the word, in its form // see
    docs/ASSEMBLY.md, 2 Operand
mended by r2, 0 => r2, 0, +0
.method f r 0 0 / mov r0, 0 / exit r0
=> 1 line 3: 2 Operand // line 3: exit r0 // form: `exit` alone // wanted: the operands of the word, in its form //
    see docs/ASSEMBLY.md, 2 Operand
mended by exit r0 => exit
.method F ro 0 0 / mov r0, 0 / exit
=> 1 line 1: 2 Operand // line 1: .method F ro 0 0 // operand 1, `F`: no method's name: 1 to 64 of a to z, 0 to 9
    and _ // operand 2, `ro`: no flags: r (reads), w (writes) or rw // form: `.method name rw 8 8` // wanted: the
    operands of the word, in its form // see docs/ASSEMBLY.md, 2 Operand
mended by F ro => f r
.method f, r, 0, 0 / mov r0, 0 / exit
=> 1 line 1: 2 Operand // line 1: .method f, r, 0, 0 // `.method` wants 4 operands, with blanks and no commas
    between them; here it has 7 // form: `.method name rw 8 8` // wanted: the operands of the word, in its form //
    see docs/ASSEMBLY.md, 2 Operand
mended by f, r, 0, 0 => f r 0 0
.method f r 0 / mov r0, 0 / exit
=> 1 line 1: 2 Operand // line 1: .method f r 0 // `.method` wants 4 operands, with blanks and no commas between
    them; here it has 3 // form: `.method name rw 8 8` // wanted: the operands of the word, in its form // see
    docs/ASSEMBLY.md, 2 Operand
mended by f r 0 => f r 0 0
.method f r 0 70000 / mov r0, 0 / exit
=> 1 line 1: 3 Range // line 1: .method f r 0 70000 // operand 4, `70000`: out of range: IN and OUT are 0 to 4096,
    by rule set 3 to 65535 // form: `.method name rw 8 8` // wanted: a number within its field, 1 to 4096 slots in a
    method, 1 to 32 methods // see docs/ASSEMBLY.md, 3 Range
mended by 70000 => 4096
.method f r 0 5000 / mov r0, 0 / exit
=> 1 line 1: 3 Range // line 1: .method f r 0 5000 // IN and OUT are at most 4096: smaller ones, or `.rules 3` on
    the first line, with at most 65535 // wanted: a number within its field, 1 to 4096 slots in a method, 1 to 32
    methods // see docs/ASSEMBLY.md, 3 Range
mended by .method => .rules 3 / .method
.rules 1 / .method f r 0 0 / mov r0, 0 / exit
=> 1 line 1: 2 Operand // line 1: .rules 1 // operand 1, `1`: 2 or 3; a class of rule set 1 has no such line //
    form: `.rules 2` or `.rules 3` // wanted: the operands of the word, in its form // see docs/ASSEMBLY.md, 2
    Operand
mended by rules 1 => rules 2
.method f r 0 0 / .rules 2 / mov r0, 0 / exit
=> 1 line 2: 1 Word // line 2: .rules 2 // `.rules` stands once, above all lines but comments and empty ones //
    wanted: first an instruction's word, or a label `name:`, `.method` or `.rules` // see docs/ASSEMBLY.md, 1 Word
mended by .method f r 0 0 / .rules 2 => .rules 2 / .method f r 0 0
mov r0, 0 / exit
=> 1 line 1: 1 Word // line 1: mov r0, 0 // it stands before the first `.method`: write `.method name rw 8 8` above
    it // wanted: first an instruction's word, or a label `name:`, `.method` or `.rules` // see docs/ASSEMBLY.md, 1
    Word
mended by mov r0 => .method f rw 8 8 / mov r0
.method f r 0 0 / mov r0, 0 / goto end / end: / exit
=> 1 line 3: 1 Word // line 3: goto end // write `ja end` // wanted: first an instruction's word, or a label
    `name:`, `.method` or `.rules` // see docs/ASSEMBLY.md, 1 Word
mended by goto => ja
.method f r 0 0 / r0 = 0 / exit
=> 1 line 2: 1 Word // line 2: r0 = 0 // write `mov r0, 0` // wanted: first an instruction's word, or a label
    `name:`, `.method` or `.rules` // see docs/ASSEMBLY.md, 1 Word
mended by r0 = 0 => mov r0, 0
.method f r 0 0 / w0 = 7 / exit
=> 1 line 2: 1 Word // line 2: w0 = 7 // write `mov32 r0, 7` // wanted: first an instruction's word, or a label
    `name:`, `.method` or `.rules` // see docs/ASSEMBLY.md, 1 Word
mended by w0 = 7 => mov32 r0, 7
.method f r 8 0 / r0 = *(u32 *)(r1 + 4) / exit
=> 1 line 2: 1 Word // line 2: r0 = *(u32 *)(r1 + 4) // write `ldxw r0, [r1+4]` // wanted: first an instruction's
    word, or a label `name:`, `.method` or `.rules` // see docs/ASSEMBLY.md, 1 Word
mended by r0 = *(u32 *)(r1 + 4) => ldxw r0, [r1+4]
.method f r 0 8 / *(u64 *)(r3 + 0) = r2 / r0 = 0 / exit
=> 1 line 2: 1 Word // line 2: *(u64 *)(r3 + 0) = r2 // write `stxdw [r3+0], r2` // wanted: first an instruction's
    word, or a label `name:`, `.method` or `.rules` // see docs/ASSEMBLY.md, 1 Word
mended by *(u64 *)(r3 + 0) = r2 / r0 = 0 => stxdw [r3+0], r2 / mov r0, 0
.method f r 8 0 / mov r0, 0 / if r2 == 0 goto end / mov r0, 1 / end: / exit
=> 1 line 3: 1 Word // line 3: if r2 == 0 goto end // write `jeq r2, 0, end` // wanted: first an instruction's word,
    or a label `name:`, `.method` or `.rules` // see docs/ASSEMBLY.md, 1 Word
mended by if r2 == 0 goto end => jeq r2, 0, end
.method f r 0 0 / mov r0, 0 / return
=> 1 line 3: 1 Word // line 3: return // write `exit`, after `mov r0, 0` // wanted: first an instruction's word, or
    a label `name:`, `.method` or `.rules` // see docs/ASSEMBLY.md, 1 Word
mended by return => exit
.method f r 8 0 / ldr r0, [r1+0] / exit
=> 1 line 2: 1 Word // line 2: ldr r0, [r1+0] // write `ldxdw r0, [r1+0]` // wanted: first an instruction's word, or
    a label `name:`, `.method` or `.rules` // see docs/ASSEMBLY.md, 1 Word
mended by ldr => ldxdw
.method f r 0 0 / MOV r0, 0 / exit
=> 1 line 2: 1 Word // line 2: MOV r0, 0 // the nearest word is `mov` // wanted: first an instruction's word, or a
    label `name:`, `.method` or `.rules` // see docs/ASSEMBLY.md, 1 Word
mended by MOV => mov
.method f r 0 0 / mvo r0, 0 / exit
=> 1 line 2: 1 Word // line 2: mvo r0, 0 // the nearest word is `mov` // wanted: first an instruction's word, or a
    label `name:`, `.method` or `.rules` // see docs/ASSEMBLY.md, 1 Word
mended by mvo => mov
.method f r 8 0 / mov r0, 0 / jmp end / end: / exit
=> 1 line 3: 1 Word // line 3: jmp end // write `ja end` // wanted: first an instruction's word, or a label `name:`,
    `.method` or `.rules` // see docs/ASSEMBLY.md, 1 Word
mended by jmp => ja
.method f r 8 0 / mov r0, 0 / ja end / end / exit
=> 1 line 3: 4 Label // line 3: ja end // the method has no label `end`: write `end:` alone in line 4 // wanted:
    each label once in its method, and the methods in the order of their names // see docs/ASSEMBLY.md, 4 Label
mended by end / end => end / end:
.method f r 8 0 / mov r0, 0 / ja end / end : / exit
=> 1 line 3: 4 Label // line 3: ja end // the method has no label `end`: write `end:` alone in line 4 // wanted:
    each label once in its method, and the methods in the order of their names // see docs/ASSEMBLY.md, 4 Label
mended by end : => end:
.method f r 8 0 / mov r0, 0 / ja end / end: exit
=> 1 line 3: 4 Label // line 3: ja end // the method has no label `end`: write `end:` alone in line 4 // wanted:
    each label once in its method, and the methods in the order of their names // see docs/ASSEMBLY.md, 4 Label
mended by end: exit => end: / exit
.method f r 8 0 / mov r0, 0 / ja end / End: / exit
=> 1 line 3: 4 Label // line 3: ja end // the method has no label `end`: write `end:` alone in line 4 // wanted:
    each label once in its method, and the methods in the order of their names // see docs/ASSEMBLY.md, 4 Label
mended by End: => end:
.method f r 8 0 / mov r0, 0 / ja edn / end: / exit
=> 1 line 3: 4 Label // line 3: ja edn // the method has no label `edn`; the nearest one is `end` // wanted: each
    label once in its method, and the methods in the order of their names // see docs/ASSEMBLY.md, 4 Label
mended by edn => end
.method f r 8 0 / mov r0, 0 / ja done / exit
=> 1 line 3: 4 Label // line 3: ja done // the method has no label `done`: write `done:` above the instruction //
    wanted: each label once in its method, and the methods in the order of their names // see docs/ASSEMBLY.md, 4
    Label
mended by exit => done: / exit
.method f r 8 0 / mov r0, 0 / ja end / end: / end: / exit
=> 1 line 5: 4 Label // line 5: end: // `end:` stands in line 4 too: another name for one of them // wanted: each
    label once in its method, and the methods in the order of their names // see docs/ASSEMBLY.md, 4 Label
mended by end: / end: => end:
.method f r 0 0 / # nothing / mov r0, 0 / exit
=> 1 line 2: 1 Word // line 2: # nothing // write a comment after `;` // wanted: first an instruction's word, or a
    label `name:`, `.method` or `.rules` // see docs/ASSEMBLY.md, 1 Word
mended by # => ;
.text / .method f r 0 0 / mov r0, 0 / exit
=> 1 line 1: 1 Word // line 1: .text // write `.method name rw 8 8` before a method's code // wanted: first an
    instruction's word, or a label `name:`, `.method` or `.rules` // see docs/ASSEMBLY.md, 1 Word
mended by .text / => ; /
.method g r 0 0 / mov r0, 0 / exit / .method f r 0 0 / mov r0, 0 / exit
=> 1 line 4: 4 Label // line 4: .method f r 0 0 // methods stand in the order of their names, each once, and this
    one is not above `g` // wanted: each label once in its method, and the methods in the order of their names //
    see docs/ASSEMBLY.md, 4 Label
mended by .method g r => .method e r
.method f r 0 0 / .method g r 0 0 / mov r0, 0 / exit
=> 1 line 1: 3 Range // line 1: .method f r 0 0 // no instruction stands below it: a method ends with `exit` //
    wanted: a number within its field, 1 to 4096 slots in a method, 1 to 32 methods // see docs/ASSEMBLY.md, 3 Range
mended by f r 0 0 => f r 0 0 / mov r0, 0 / exit
.method f r 0 0 / ; mov r0, 0 / ; exit
=> 1 line 1: 3 Range // line 1: .method f r 0 0 // no line has an instruction: a method ends with `exit` // wanted:
    a number within its field, 1 to 4096 slots in a method, 1 to 32 methods // see docs/ASSEMBLY.md, 3 Range
mended by ; mov r0, 0 / ; exit => mov r0, 0 / exit
"""

# Texts of which more than one line is wrong, and each is told.
EACH_LINE = r"""
verify - --all --explain / .method f r 0 0 / mvo r0, 0 / jmp end / add r0, 1.5 / end: / exit / .method F r 0 0 /
    exit / .method g r 0 0 / end: / end: / ja ned / exit
=> 1 line 2: 1 Word // line 2: mvo r0, 0 // the nearest word is `mov` // wanted: first an instruction's word, or a
    label `name:`, `.method` or `.rules` // see docs/ASSEMBLY.md, 1 Word / line 3: 1 Word // line 3: jmp end //
    write `ja end` // wanted: first an instruction's word, or a label `name:`, `.method` or `.rules` // see
    docs/ASSEMBLY.md, 1 Word / line 4: 2 Operand // line 4: add r0, 1.5 // operand 2, `1.5`: numbers are whole: no
    point // form: `add r1, r2` or `add r1, -5` // wanted: the operands of the word, in its form // see
    docs/ASSEMBLY.md, 2 Operand / line 7: 2 Operand // line 7: .method F r 0 0 // operand 1, `F`: no method's name:
    1 to 64 of a to z, 0 to 9 and _ // form: `.method name rw 8 8` // wanted: the operands of the word, in its form
    // see docs/ASSEMBLY.md, 2 Operand / line 11: 4 Label // line 11: end: // `end:` stands in line 10 too: another
    name for one of them // wanted: each label once in its method, and the methods in the order of their names //
    see docs/ASSEMBLY.md, 4 Label / line 12: 4 Label // line 12: ja ned // the method has no label `ned`; the
    nearest one is `end` // wanted: each label once in its method, and the methods in the order of their names //
    see docs/ASSEMBLY.md, 4 Label
"""

# Texts that end or begin with what can't be seen.
WORD = "wanted: first an instruction's word, or a label `name:`, `.method` or `.rules` // see docs/ASSEMBLY.md, 1 Word"
OPERAND = "wanted: the operands of the word, in its form // see docs/ASSEMBLY.md, 2 Operand"
CR_LF = r"\x0d // the line ends with CR LF: end each line with LF alone // "
UNSEEN = [
    (b".method f r 0 0\nmov r0, 0\nexit\r\n", "line 3: 1 Word // line 3: exit" + CR_LF + WORD),
    (b".method f r 0 0\r\nmov r0, 0\r\nexit\r\n", "line 1: 2 Operand // line 1: .method f r 0 0" + CR_LF + OPERAND),
    (b"\xef\xbb\xbf.method f r 0 0\nmov r0, 0\nexit\n", r"line 1: 1 Word // line 1: \xef\xbb\xbf.method f r 0 0 // "
     "the text begins with a byte order mark: leave it out // " + WORD),
]


# Bad lines of a file of events.
SIM_MISTAKES = r"""
sim - --explain / map 1 / halt / show 1
=> 1 map 1 prev 0 / line 2: bad // line 2: halt // `halt` begins no line //
    wanted: first `map`, `see`, `req`, `deliver`, `stop`, `go`, `resend` or `show` // see docs/PROGRAM.md, sim
sim - --explain / Shwo 1
=> 1 line 1: bad // line 1: Shwo 1 // `Shwo` begins no line; the nearest word that does is `show` //
    wanted: first `map`, `see`, `req`, `deliver`, `stop`, `go`, `resend` or `show` // see docs/PROGRAM.md, sim
sim - --explain / reset 1
=> 1 line 1: bad // line 1: reset 1 // `reset` begins no line; the nearest word that does is `resend` //
    wanted: first `map`, `see`, `req`, `deliver`, `stop`, `go`, `resend` or `show` // see docs/PROGRAM.md, sim
sim - --explain / see 1
=> 1 line 1: bad // line 1: see 1 // words are missing // form: `see N E` // see docs/PROGRAM.md, sim
sim - --explain / deliver 1 2
=> 1 line 1: bad // line 1: deliver 1 2 // `2` is one word too many // form: `deliver M` // see docs/PROGRAM.md, sim
sim - --explain / map 1 01
=> 1 line 1: bad // line 1: map 1 01 // `01` is no number: decimal digits, no sign and no leading zero //
    form: `map N ..` // see docs/PROGRAM.md, sim
sim - --explain / stop m1
=> 1 line 1: bad // line 1: stop m1 // `m1` is no number: decimal digits, no sign and no leading zero //
    form: `stop N` // see docs/PROGRAM.md, sim
sim - --explain / req 1 1 4294967296 a lock lock -
=> 1 line 1: bad // line 1: req 1 1 4294967296 a lock lock - // `4294967296` is no number from 1 to 4294967295 //
    form: `req N CLIENT NUMBER OBJECT CLASS METHOD HEX` // see docs/PROGRAM.md, sim
sim - --explain / req 1 0 1 a lock lock 0
=> 1 line 1: bad // line 1: req 1 0 1 a lock lock 0 // `0` is no number from 1 to 4294967295 //
    form: `req N CLIENT NUMBER OBJECT CLASS METHOD HEX` // see docs/PROGRAM.md, sim
sim - --explain / req 1 1 1 a lock lock 0x
=> 1 line 1: bad // line 1: req 1 1 1 a lock lock 0x //
    `0x` isn't in hexadecimal: two digits a byte, or - for no byte //
    form: `req N CLIENT NUMBER OBJECT CLASS METHOD HEX` // see docs/PROGRAM.md, sim
sim - --explain / req 1 1 1 a lock lock 012
=> 1 line 1: bad // line 1: req 1 1 1 a lock lock 012 //
    `012` isn't in hexadecimal: two digits a byte, or - for no byte //
    form: `req N CLIENT NUMBER OBJECT CLASS METHOD HEX` // see docs/PROGRAM.md, sim
sim - --explain / go 16
=> 1 line 1: bad // line 1: go 16 // there is no node 16: they are 0 to 15 // form: `go N` //
    see docs/PROGRAM.md, sim
sim - --explain / map 1 / map 2 / see 1 3
=> 1 map 1 prev 0 / map 2 prev 0 / line 3: bad // line 3: see 1 3 // there is no map 3: made so far are 2 //
    form: `see N E` // see docs/PROGRAM.md, sim
sim - --explain / deliver 0
=> 1 line 1: bad // line 1: deliver 0 // there is no message 0: sent so far are 0 // form: `deliver M` //
    see docs/PROGRAM.md, sim
sim - --explain --trace / map 1 / see 1 1 / deliver 2
=> 1 1           mon         event / |           *           map 1: map 1 prev 0 / *           |           see 1 1 => m1
    / |--m1----x  |           AskActivate 1, lost / line 3: bad // line 3: deliver 2 //
    there is no message 2: sent so far are 1 // form: `deliver M` // see docs/PROGRAM.md, sim
sim missing --explain
=> 1 cannot read // missing: No such file or directory (os error 2)
sim locks.sim --class a=missing --explain
=> 1 cannot read // class a, missing // missing: No such file or directory (os error 2)
sim locks.sim --explain --class a=two.img --class b=word.txt --class c=missing
=> 1 line 2: 1 Word // class b, word.txt // line 2: foo r1 // wanted: first an instruction's word, or a label `name:`,
    `.method` or `.rules` // see docs/ASSEMBLY.md, 1 Word
sim missing --explain --class a=two.img --objects
=> 1 cannot read // missing: No such file or directory (os error 2)
"""

# Bad and refused lines of a cluster file, by what is wrong first.
CLUSTER_MISTAKES = r"""
cluster - --explain / {first} / clients 1 a lock lock -
=> 1 line 2: bad // - line 2: clients 1 a lock lock - //
    `clients` begins no line here; the nearest word that does is `client` //
    wanted: first `client` or `map`; `cluster` begins the first line alone // see docs/PROGRAM.md, cluster
cluster - --explain / {first} / {first}
=> 1 line 2: bad // - line 2: {first} // `cluster` begins no line here //
    wanted: first `client` or `map`; `cluster` begins the first line alone // see docs/PROGRAM.md, cluster
cluster - --explain / map 0
=> 1 line 1: bad // - line 1: map 0 // `map` begins no line here // wanted: first `cluster` //
    see docs/PROGRAM.md, cluster
cluster - --explain / {first} / client 1 a lock lock
=> 1 line 2: bad // - line 2: client 1 a lock lock // words are missing // form: `client C OBJECT CLASS METHOD HEX` //
    see docs/PROGRAM.md, cluster
cluster - --explain / {first} 1
=> 1 line 1: bad // - line 1: {first} 1 // `1` is one word too many //
    form: `cluster nodes N replicas N groups N shards N workers N tries N` // see docs/PROGRAM.md, cluster
cluster - --explain / cluster nodes 17 groups 64 replicas 3 shards 4 workers 4 tries 1
=> 1 line 1: bad // - line 1: cluster nodes 17 groups 64 replicas 3 shards 4 workers 4 tries 1 //
    `groups` stands in place of `replicas` // form: `cluster nodes N replicas N groups N shards N workers N tries N` //
    see docs/PROGRAM.md, cluster
cluster - --explain / {first} / map 0 01
=> 1 line 2: bad // - line 2: map 0 01 // `01` is no number: decimal digits, no sign and no leading zero //
    form: `map N ..` // see docs/PROGRAM.md, cluster
cluster bad.calls --explain
=> 1 line 3: bad // bad.calls line 3: client 3 a lock lock - //
    client `3` is out of range: 1 to 2, those above and the next, at most 64 //
    form: `client C OBJECT CLASS METHOD HEX` // see docs/PROGRAM.md, cluster
cluster limit.calls --explain
=> 1 line 1: refused 1 Limit //
    limit.calls line 1: cluster nodes 17 replicas 3 groups 64 shards 4 workers 4 tries 100000000 //
    nodes `17` is out of range: 1 to 16 // form: `cluster nodes N replicas N groups N shards N workers N tries N` //
    see docs/PROGRAM.md, cluster
cluster - --explain / cluster nodes 3 replicas 3 groups 48 shards 4 workers 4 tries 1
=> 1 line 1: refused 1 Limit // - line 1: cluster nodes 3 replicas 3 groups 48 shards 4 workers 4 tries 1 //
    groups `48` is out of range: 1, 2, 4, .. 64 //
    form: `cluster nodes N replicas N groups N shards N workers N tries N` // see docs/PROGRAM.md, cluster
cluster - --explain / {first} / map 0 3
=> 1 line 2: refused 2 Limit // - line 2: map 0 3 // node `3` is out of range: 0 to 2 // form: `map N ..` //
    see docs/PROGRAM.md, cluster
cluster - --explain / {first} / client 1 a lock lock 0x
=> 1 line 2: bad // - line 2: client 1 a lock lock 0x //
    `0x` isn't in hexadecimal: two digits a byte, or - for no byte // form: `client C OBJECT CLASS METHOD HEX` //
    see docs/PROGRAM.md, cluster
cluster map.calls --explain
=> 1 line 3: refused 1 NoneUp // map.calls line 3: map // no node is up: name one or more // form: `map N ..` //
    see docs/PROGRAM.md, cluster
cluster - --explain / {first} / map 2 0 2
=> 1 line 2: refused 2 Limit // - line 2: map 2 0 2 // node `2` stands twice // form: `map N ..` //
    see docs/PROGRAM.md, cluster
cluster missing --explain
=> 1 cannot read // missing: No such file or directory (os error 2)
cluster calls --explain --class a=missing
=> 1 cannot read // class a, missing // missing: No such file or directory (os error 2)
cluster calls --explain --class a=two.img --class b=word.txt --class c=missing
=> 1 line 2: 1 Word // class b, word.txt // line 2: foo r1 // wanted: first an instruction's word, or a label `name:`,
    `.method` or `.rules` // see docs/ASSEMBLY.md, 1 Word
""".replace("{first}", NUMBERS.strip())
LONG_NAME = "a" * 256
# What can't be seen in a line, what a terminal obeys, and a name that is too long.
SIM_LINES = [
    (b"show 1\r\nshow 2\r\n",
     r"line 1: show 1\x0d // the line ends with CR LF: end each line with LF alone // form: `show N`"),
    (b"\xef\xbb\xbfshow 1\n",
     r"line 1: \xef\xbb\xbfshow 1 // the text begins with a byte order mark: leave it out"),
    (b"show \x1b[2J\n",
     r"line 1: show \x1b[2J // `\x1b[2J` is no number: decimal digits, no sign and no leading zero // form: `show N`"),
    (f"req 1 1 1 {LONG_NAME} lock lock -\n".encode(),
     f"line 1: req 1 1 1 {LONG_NAME} lock lock - // the object's name has 256 bytes: at most 255 // "
     "form: `req N CLIENT NUMBER OBJECT CLASS METHOD HEX`"),
]
# The same of a cluster file, below its first line.
CLUSTER_LINES = [
    (b"map 0\r\n", r"map 0\x0d // the line ends with CR LF: end each line with LF alone // form: `map N ..`"),
    (b"\xef\xbb\xbfmap 0\n", r"\xef\xbb\xbfmap 0 // the text begins with a byte order mark: leave it out"),
    (b"\n", " // words are missing"),
    (f"client 1 {LONG_NAME} lock lock -\n".encode(),
     f"client 1 {LONG_NAME} lock lock - // the object's name has 256 bytes: at most 255 // "
     "form: `client C OBJECT CLASS METHOD HEX`"),
]


def mistakes(table):
    """The rows of mistakes: of each the text that is refused, and the one that is accepted."""
    lines = table.strip("\n").replace("\n    ", " ").split("\n")
    for text, answer, change in zip(lines[::3], lines[1::3], lines[2::3], strict=True):
        yield from rows_of(f"verify - --explain / {text}\n{answer}")
        old, _, new = change.removeprefix("mended by ").partition(" => ")
        yield Row("verify - --explain", lambda printed: " ok " in printed,
                  stdin=lines_of(text.replace(old, new)).encode())


# By rule set 2, what register 0 points to goes 2,047 times through a slot of the stack; the last of
# 4,096 slots is explained.
LAST_TEXT = (".rules 2\n.method f r 4096 4096\nmov r0, r1\n"
             + "stxdw [r10-8], r0\nldxdw r0, [r10-8]\n" * 2047 + "exit\n")
LAST = lines_of(
    "refused method 0 slot 4095: 15 ReturnsPointer // method f, IN 4096, OUT 4096 // exit // r0 = input + 0 // "
    "wanted: a number in register 0 // see docs/VERIFIER.md, 15 ReturnsPointer // "
    "`mov r0, 0` before it, or another number; output goes by `call 13` // line 4098: exit")

# Texts past a limit, and what is said of each.
RANGE = ("wanted: a number within its field, 1 to 4096 slots in a method, 1 to 32 methods // "
         "see docs/ASSEMBLY.md, 3 Range")
LONG_TEXTS = [
    (".method f r 0 0\n" + "mov r0, 0\n" * 4096 + "exit\n",
     "line 4098: 3 Range // line 4098: exit // it passes the 4,096 slots of a method, of which `lddw` takes two // "
     + RANGE),
    ("".join(f".method m{n:02} r 0 0\nmov r0, 0\nexit\n" for n in range(33)),
     "line 97: 3 Range // line 97: .method m32 r 0 0 // it is the 33rd method: a class has at most 32 // " + RANGE),
]

IMAGE_WANTED = "wanted: an image, which begins with RCL1, RCL2 or RCL3, or a class's text in UTF-8 // see docs/IMAGE.md"
EXIT = bytes.fromhex("b700000000000000 9500000000000000")


def method_of(name, code, flags=1, slots=None):
    """A method of an image."""
    count = len(code) // 8 if slots is None else slots
    return bytes([len(name)]) + name + struct.pack("<BHHH", flags, 0, 0, count) + code


def image_of(*methods, magic=b"RCL1"):
    return magic + struct.pack("<HH", len(methods), 0) + b"".join(methods)


# Damaged images, and what is said of each.
IMAGES = [
    (b"RCL1",
     "0 methods: 1 Truncated // 4 bytes, the first: 52 43 4c 31 // 0 methods end at byte 8 // it ends within a "
     "field: it was cut, or is none; code has 8 bytes a slot"),
    (image_of(method_of(b"f", EXIT))[:-3],
     "0 methods: 1 Truncated // 30 bytes, the first: 52 43 4c 31 01 00 00 00 // method 0, at byte 8: `f` of 1 "
     "bytes, flags 1, IN 0, OUT 0, slots 2 // it ends within a field: it was cut, or is none; code has 8 bytes "
     "a slot"),
    (image_of(method_of(b"f", EXIT), magic=b"RCL9"),
     "0 methods: 2 Magic // 33 bytes, the first: 52 43 4c 39 01 00 00 00 // 0 methods end at byte 8 // its "
     "first bytes aren't RCL1, RCL2 or RCL3, or the two after the count of methods aren't zero"),
    (image_of(method_of(b"f", bytes.fromhex("db12000000000000") + EXIT)),
     "0 methods, slot 0: 3 Opcode // method 0 slot 0, at byte 17: db 12 00 00 00 00 00 00: atomics aren't "
     "taken // no operation of the language has this first byte"),
    (image_of(method_of(b"f", EXIT), method_of(b"g", EXIT[:8] + bytes.fromhex("8d00000000000000") + EXIT)),
     "1 methods, slot 1: 3 Opcode // method 1 slot 1, at byte 50: 8d 00 00 00 00 00 00 00: calls of a register "
     "aren't taken // no operation of the language has this first byte"),
    (image_of(method_of(b"f", bytes.fromhex("3000000000000000") + EXIT)),
     "0 methods, slot 0: 3 Opcode // method 0 slot 0, at byte 17: 30 00 00 00 00 00 00 00: loads from a packet "
     "aren't taken // no operation of the language has this first byte"),
    (image_of(method_of(b"f", EXIT) + b"\0\0", method_of(b"g", bytes.fromhex("c312000000000000") + EXIT) + b"\0\0",
              magic=b"RCL3"),
     "1 methods, slot 0: 3 Opcode // method 1 slot 0, at byte 44: c3 12 00 00 00 00 00 00: atomics aren't taken // "
     "no operation of the language has this first byte"),
    (image_of(method_of(b"f", EXIT + b"\xff" * 8)),
     "0 methods, slot 2: 3 Opcode // method 0 slot 2, at byte 33: ff ff ff ff ff ff ff ff: opcode ff // no "
     "operation of the language has this first byte"),
    (image_of(method_of(b"f", bytes.fromhex("b70b000000000000") + EXIT)),
     "0 methods, slot 0: 4 Register // method 0 slot 0, at byte 17: b7 0b 00 00 00 00 00 00: dst 11, src 0 // "
     "registers are r0 to r10: the second byte has dst in its low four bits, src in its high four"),
    (image_of(method_of(b"f", bytes.fromhex("9500010000000000") + EXIT)),
     "0 methods, slot 0: 5 NonzeroField // method 0 slot 0, at byte 17: 95 00 01 00 00 00 00 00: dst 0, src 0 "
     "// a field that the operation doesn't use isn't zero, or its src, offset or imm selects no operation"),
    (image_of(method_of(b"f", EXIT + bytes.fromhex("1800000001000000"))),
     "0 methods, slot 2: 6 WideHalf // method 0 slot 2, at byte 33: 18 00 00 00 01 00 00 00: dst 0, src 0 // a "
     "wide load has a second slot, in which all but the number's high half is zero"),
    (image_of(method_of(b"F", EXIT)),
     "0 methods: 7 Name // 33 bytes, the first: 52 43 4c 31 01 00 00 00 // method 0, at byte 8: `F` of 1 "
     "bytes, flags 1, IN 0, OUT 0, slots 2 // a method's name has 1 to 64 of a-z, 0-9 and _"),
    (image_of(method_of(b"g", EXIT), method_of(b"f", EXIT)),
     "1 methods: 8 Order // 58 bytes, the first: 52 43 4c 31 02 00 00 00 // method 1, at byte 33: `f` of 1 "
     "bytes, flags 1, IN 0, OUT 0, slots 2 // methods stand in the order of their names, each once"),
    (image_of(method_of(b"f", EXIT, flags=4)),
     "0 methods: 9 Flags // 33 bytes, the first: 52 43 4c 31 01 00 00 00 // method 0, at byte 8: `f` of 1 "
     "bytes, flags 4, IN 0, OUT 0, slots 2 // flags are 1 (r), 2 (w) or 3 (rw)"),
    (image_of(method_of(b"f", EXIT, slots=0)),
     "0 methods: 10 Limit // 33 bytes, the first: 52 43 4c 31 01 00 00 00 // method 0, at byte 8: `f` of 1 "
     "bytes, flags 1, IN 0, OUT 0, slots 0 // 1 to 32 methods of 1 to 4096 slots; IN, OUT to 4096, by rule "
     "set 3 65535; 64 heads, budget to 1048576"),
    (image_of(method_of(b"f", EXIT)) + b"\0",
     "1 methods: 11 Trailing // 34 bytes, the first: 52 43 4c 31 01 00 00 00 // 1 methods end at byte 33 // "
     "bytes follow the last method"),
]

EXPLAINED_ROWS = [
    *rows_of(EXPLAINED), *mistakes(MISTAKES), *mistakes(TEXT_MISTAKES), *rows_of(EACH_LINE), *rows_of(SIM_MISTAKES),
    *(Row("sim - --explain", lines_of(f"line 1: bad // {said} // see docs/PROGRAM.md, sim"), "", 1, stdin=text)
      for text, said in SIM_LINES),
    *rows_of(CLUSTER_MISTAKES), Row("cluster calls --explain", CALLS),
    *(Row("cluster - --explain", lines_of(f"line 2: bad // - line 2: {said} // see docs/PROGRAM.md, cluster"), "", 1,
          stdin=NUMBERS.encode() + text) for text, said in CLUSTER_LINES),
    *(Row("verify - --explain", lines_of(said), "", 1, stdin=text) for text, said in UNSEEN),
    *(Row("verify - --all --explain", lines_of(f"image refused after {said} // {IMAGE_WANTED}"), "", 1, stdin=image)
      for image, said in IMAGES),
    *(Row("verify - --explain", lines_of(said), "", 1, stdin=text.encode()) for text, said in LONG_TEXTS),
    Row("verify - --explain", LAST, "", 1, stdin=LAST_TEXT.encode(), slow=True),
]
