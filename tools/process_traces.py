"""Rows of tools/process.py on `run --trace`: what each executed instruction changed."""
from process_rows import EXAMPLES, FILES, FULL, RAN, UNSAFE, Row, lines_of, rows_of

with open(f"{EXAMPLES}/hello.txt", "rb") as text:
    FILES["hello.txt"] = text.read()

# An image has no lines. A stored value, a helper's answer and the bytes that it wrote, with names
# of errors and of an answer that is none; of a longer range its beginning.
TRACED = r"""
run two.img f --trace
=> 0 slot 0: mov r0, 0; r0 = 0 / slot 1: exit / code 0 / output - / steps 2 / object absent
run hello.txt hello --trace
=> 0 slot 0 line 3: stw [r3+0], 1819043176; [output + 0] = 68656c6c /
    slot 1 line 4: stb [r3+4], 111; [output + 4] = 6f / slot 2 line 5: mov r1, 5; r1 = 5 /
    slot 3 line 6: call 13; out_len(5) = 0 / slot 4 line 7: exit /
    code 0 / output 68656c6c6f / steps 5 / object absent
run lock.img lock --trace --show
=> 0 slot 0: call 15; caller() = 1 / slot 1: mov r6, r0; r6 = 1 /
    slot 2: stw [r10-4], 1801678700; [stack - 4] = 6c6f636b / slot 3: mov r1, r10; r1 = stack + 0 /
    slot 4: add r1, -4; r1 = stack - 4 / slot 5: mov r2, 4; r2 = 4 / slot 6: mov r3, r10; r3 = stack + 0 /
    slot 7: add r3, -16; r3 = stack - 16 / slot 8: mov r4, 8; r4 = 8 /
    slot 9: call 6; getxattr([stack - 4] = 6c6f636b, [stack - 16] of 8) = -2 ENOENT /
    slot 10: jsge r0, 0, +9 / slot 11: stxdw [r10-16], r6; [stack - 16] = 0100000000000000 /
    slot 12: mov r1, r10; r1 = stack + 0 / slot 13: add r1, -4; r1 = stack - 4 / slot 14: mov r2, 4; r2 = 4 /
    slot 15: mov r3, r10; r3 = stack + 0 / slot 16: add r3, -16; r3 = stack - 16 / slot 17: mov r4, 8; r4 = 8 /
    slot 18: call 7; setxattr([stack - 4] = 6c6f636b, [stack - 16] = 0100000000000000) = 0 / slot 19: exit /
    code 0 / output - / steps 20 / object 0 1 0 / data - / xattr lock 0100000000000000
run count.txt count --trace --key n=050000000000000000
=> 0 slot 0 line 3: mov r6, r3; r6 = output + 0 / slot 1 line 4: stb [r10-1], 110; [stack - 1] = 6e /
    slot 2 line 5: mov r1, r10; r1 = stack + 0 / slot 3 line 6: add r1, -1; r1 = stack - 1 /
    slot 4 line 7: mov r2, 1; r2 = 1 / slot 5 line 8: mov r4, 8; r4 = 8 /
    slot 6 line 9: call 9; map_get([stack - 1] = 6e, [output + 0] of 8) = -34 ERANGE /
    slot 7 line 10: jeq r0, 8, +5 / slot 8 line 11: jeq r0, -61, +4 / slot 9 line 12: jeq r0, -2, +3 /
    slot 10 line 13: jslt r0, 0, +15 / slot 26 line 31: exit / code -34 / output - / steps 12 / object 0 0 1
run - f --trace / .method f r 8 0 / stxdw [r10-8], r1 / mov r0, 0 / exit
=> 1 refused method 0 slot 0: 9 PointerStored
run - f --trace --input 0aff / .rules 2 / .method e r 0 0 / mov r0, 0 / exit / .method f r 8 0 / stxdw [r10-8], r1 /
    here: / ldxdw r2, [r10-8] / ldxb r3, [r2+1] / mov r4, -2 / lddw r5, 0x000000000000000a / jne r4, r5, there /
    mov r0, 0 / there: / mov r0, r3 / exit
=> 0 slot 0 line 6: stxdw [r10-8], r1; [stack - 8] = input + 0 / slot 1 line 8: ldxdw r2, [r10-8]; r2 = input + 0 /
    slot 2 line 9: ldxb r3, [r2+1]; r3 = 255 (0xff) / slot 3 line 10: mov r4, -2; r4 = -2 (0xfffffffffffffffe) /
    slot 4 line 11: lddw r5, 0x000000000000000a; r5 = 10 (0xa) / slot 6 line 12: jne r4, r5, +1 /
    slot 8 line 15: mov r0, r3; r0 = 255 (0xff) / slot 9 line 16: exit / code 255 / output - / steps 8 / object absent
run - f --trace --object 0102 / .method f rw 0 8 / mov r1, 1 / mov r2, r3 / mov r3, 8 / call 2 / mov r1, 1 / call 14 /
    mov r0, 0 / exit
=> 0 slot 0 line 2: mov r1, 1; r1 = 1 / slot 1 line 3: mov r2, r3; r2 = output + 0 / slot 2 line 4: mov r3, 8; r3 = 8 /
    slot 3 line 5: call 2; read(1, [output + 0] of 8) = 1; [output + 0] = 02 / slot 4 line 6: mov r1, 1; r1 = 1 /
    slot 5 line 7: call 14; create(1) = -17 EEXIST / slot 6 line 8: mov r0, 0; r0 = 0 / slot 7 line 9: exit /
    code 0 / output - / steps 8 / object 2 0 0
run - f --trace / .rules 3 / .method f r 0 0 / mov r1, r10 / mov r2, 0 / mov r3, r10 / add r3, -1 / mov r4, 1 / call 16 /
    exit
=> 0 slot 0 line 3: mov r1, r10; r1 = stack + 0 / slot 1 line 4: mov r2, 0; r2 = 0 /
    slot 2 line 5: mov r3, r10; r3 = stack + 0 / slot 3 line 6: add r3, -1; r3 = stack - 1 / slot 4 line 7: mov r4, 1; r4 = 1 /
    slot 5 line 8: call 16; compare([stack + 0] = -, [stack - 1] = 00) = -1 / slot 6 line 9: exit /
    code -1 / output - / steps 7 / object absent
run two.img g --trace
=> 1 call refused: 1 NoMethod
run two.img f --trace --input 00
=> 1 call refused: 2 InputTooLong
run two.img f --trace --object 0
=> 1 object is not hex
"""

# 65 bytes of stack, of which 64 are shown.
LONG = ".method f w 0 0 / mov r1, 0 / mov r2, r10 / add r2, -65 / mov r3, 65 / call 3 / exit"

TRACE_ROWS = [
    *rows_of(TRACED),
    Row("run - f --trace", lines_of(
        "slot 0 line 2: mov r1, 0; r1 = 0 / slot 1 line 3: mov r2, r10; r2 = stack + 0 / "
        "slot 2 line 4: add r2, -65; r2 = stack - 65 / slot 3 line 5: mov r3, 65; r3 = 65 (0x41) / "
        f"slot 4 line 6: call 3; write(0, [stack - 65] = {'00' * 64}.. (65 bytes)) = 65 / slot 5 line 7: exit / "
        "code 65 / output - / steps 6 / object 65 0 0"), stdin=lines_of(LONG).encode()),
    Row("run --trace unset.img f", UNSAFE, "", 1),
    Row("run two.img f --trace --load held --save out --explain",
        "slot 0: mov r0, 0; r0 = 0\nslot 1: exit\n" + RAN.replace("object absent", "object 2 1 1"),
        wrote={"out": b"data 6162\nxattr a 01\nkey k -\n"}),
    Row("run two.img f --trace", None, "", 1, to=FULL),
]
