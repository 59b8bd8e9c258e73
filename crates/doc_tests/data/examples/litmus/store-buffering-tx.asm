; Store buffering, with the store and the load of each core in a transaction.
;
; Of two transactions that both commit one ran after the other, so that just one of the loads gets the other's 1. A core
; whose transaction aborts has stored nothing, and shows the status of its abort: 6 for a conflict.
; Look for two zeros, or for two ones: there is neither.
;
;   ./elide outcomes examples/litmus/store-buffering-tx.asm --cores 2 --entry first,second --show "eax@0 eax@1 x y"

first:  xbegin failed
        mov dword [x], 1
        mov eax, [y]
        xend
failed: hlt

second: xbegin failed
        mov dword [y], 1
        mov eax, [x]
        xend
        hlt

section .data
x:      dd 0
        align 64
y:      dd 0

; elide: outcomes --cores 2 --entry first,second --show "eax@0 eax@1 x y"
; expect: exactly 0 1 1 1 | 0 6 1 0 | 1 0 1 1 | 6 0 0 1
; elide: outcomes --cores 2 --entry first,second --show "eax@0 eax@1 x y" --store-buffer 2
; expect: exactly 0 1 1 1 | 0 6 1 0 | 1 0 1 1 | 6 0 0 1
; elide: outcomes --cores 2 --entry first,second --show "eax@0 eax@1 x y" --store-buffer 8
; expect: exactly 0 1 1 1 | 0 6 1 0 | 1 0 1 1 | 6 0 0 1
