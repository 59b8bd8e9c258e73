; Store buffering, with the store and the load of one core in a transaction.
;
; The other core's store may be pending while the transaction runs, so that two zeros are allowed. EAX is the status
; where the transaction aborted. After Chong, Sorensen and Wickerson, "The Semantics of Transactions and Weak Memory in
; x86, Power, ARM, and C++", 2018: the verdict follows from their axioms, and is in no table of theirs. The name and the
; verdict are given from memory: the text was not at hand.
;
;   ./elide outcomes examples/litmus/transaction-on-one-core.asm --cores 2 --entry first,second --show "eax@0 ebx@0 ebx@1 x"

first:  xbegin .failed
        mov dword [x], 1
        mov ebx, [y]
        xend
.failed: nop
        hlt

second: mov dword [y], 1
        mov ebx, [x]
        hlt

section .data
x:      dd 0
        align 64
y:      dd 0

; elide: outcomes --cores 2 --entry first,second --show "eax@0 ebx@0 ebx@1 x"
; expect: exactly 0 0 1 1 | 0 1 0 1 | 0 1 1 1 | 6 0 0 0
; elide: outcomes --cores 2 --entry first,second --show "eax@0 ebx@0 ebx@1 x" --store-buffer 2
; expect: exactly 0 0 0 1 | 0 0 1 1 | 0 1 0 1 | 0 1 1 1 | 6 0 0 0
; elide: outcomes --cores 2 --entry first,second --show "eax@0 ebx@0 ebx@1 x" --store-buffer 8
; expect: exactly 0 0 0 1 | 0 0 1 1 | 0 1 0 1 | 0 1 1 1 | 6 0 0 0
