; The same increments with a locked instruction: none is lost.
;
; LOCK INC loads, adds and stores in one step, so no other core comes between.
; Look at the last line: the counter is 2.
;
;   ./elide run examples/locked.asm --cores 2 --steps "0 1 0 1" --dump 0x140:4

start:  lock inc dword [count]
        hlt

section .data
count:  dd 0

; elide: run --cores 2 --steps "0 1 0 1" --show count
; expect: line count=00000002 2
; elide: outcomes --cores 2 --show count
; expect: exactly 2
