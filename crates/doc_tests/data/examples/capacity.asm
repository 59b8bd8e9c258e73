; A capacity abort.
;
; The transaction stores into two lines of 64 bytes. With room for one line it aborts at the second store, EAX is 8 (bit 3:
; an internal buffer overflowed), and neither store remains. With room for two it goes on.
;
;   ./elide run examples/capacity.asm --writes 1 --steps "0 0 0" --trace --dump 0x140:4
;   ./elide run examples/capacity.asm --writes 2 --steps "0 0 0 0" --trace --dump 0x140:4

start:  xbegin failed
        mov dword [first], 1
        mov dword [second], 2
        xend
failed: hlt

section .data
first:  dd 0
        align 64
second: dd 0

; elide: run --writes 1 --steps "0 0 0" --trace --show first --show second
; expect: line 0 aborted 00000008
; expect: line first=00000000 0
; expect: line second=00000000 0
; elide: run --writes 2 --steps "0 0 0 0" --trace --show first --show second
; expect: line 0 committed
; expect: line first=00000001 1
; expect: line second=00000002 2
