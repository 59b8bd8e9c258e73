; False sharing: two counters that no two cores share, on one line.
;
; Each core adds 1 to a counter of its own. Neither loads or stores the other's, but both stand on one line of 64 bytes, and so the
; store of the one dooms the transaction of the other. With `align 64` before the second counter both commit.
;
;   ./elide run examples/sharing.asm --cores 2 --entry first,second --steps "0 1 0 1 1 0" --why

first:  xbegin failed
        inc dword [ours]
        xend
        hlt
second: xbegin failed
        inc dword [theirs]
        xend
        hlt
failed: hlt

section .data
ours:   dd 0
theirs: dd 0

; elide: run --cores 2 --entry first,second --steps "0 1 0 1 1 0" --trace --show ours --show theirs
; expect: line 1 committed
; expect: line 0 aborted 00000006
; expect: line ours=00000000 0
; expect: line theirs=00000001 1
