; What a transaction has stored is seen behind its commit alone.
;
; Core 0 stores 1 and then 2 in a transaction: a load of 1 is forbidden. After Chong, Sorensen and Wickerson, "The
; Semantics of Transactions and Weak Memory in x86, Power, ARM, and C++", 2018: the verdict follows from their axioms,
; and is in no table of theirs. The name and the verdict are given from memory: the text was not at hand.
;
;   ./elide outcomes examples/litmus/containment.asm --cores 2 --entry first,second --show "eax@0 ebx@1"

first:  xbegin .failed
        mov dword [x], 1
        mov dword [x], 2
        xend
.failed: nop
        hlt

second: mov ebx, [x]
        hlt

section .data
x:      dd 0

; elide: outcomes --cores 2 --entry first,second --show "eax@0 ebx@1"
; expect: exactly 0 0 | 0 2 | 6 0
; elide: outcomes --cores 2 --entry first,second --show "eax@0 ebx@1" --store-buffer 2
; expect: exactly 0 0 | 0 2 | 6 0
; elide: outcomes --cores 2 --entry first,second --show "eax@0 ebx@1" --store-buffer 8
; expect: exactly 0 0 | 0 2 | 6 0
