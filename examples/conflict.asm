; A conflict, in both orders.
;
; Two cores add 1 to the same counter, each in a transaction. The one that commits first wins: its store reaches a line that
; the other has read, and the next step of the other is its abort. EAX is then 6: bit 2, a conflict; bit 1, a retry may succeed.
;
;   ./elide run examples/conflict.asm --cores 2 --steps "0 0 1 1 0 0 0 1" --trace
;   ./elide run examples/conflict.asm --cores 2 --steps "0 0 1 1 1 1 1 0" --trace

start:  xbegin failed
        mov eax, [count]
        inc eax
        mov [count], eax
        xend
failed: hlt

section .data
count:  dd 0

; elide: run --cores 2 --steps "0 0 1 1 0 0 0 1" --trace --show count
; expect: line 0 committed
; expect: line 1 aborted 00000006
; expect: line count=00000001 1
; elide: run --cores 2 --steps "0 0 1 1 1 1 1 0" --trace --show count
; expect: line 1 committed
; expect: line 0 aborted 00000006
; expect: line count=00000001 1
; elide: outcomes --cores 2 --show "count eax@1"
; expect: exactly 1 1 | 1 6 | 2 1 | 2 2
