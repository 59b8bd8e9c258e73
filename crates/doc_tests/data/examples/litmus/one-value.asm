; A transaction loads a place twice, and another core stores to it.
;
; Where it commits both loads have one value: a 0 and a 1 with an EAX of 0 is forbidden. EAX is the status where it
; aborted. After Chong, Sorensen and Wickerson, "The Semantics of Transactions and Weak Memory in x86, Power, ARM, and
; C++", 2018: the verdict follows from their axioms, and is in no table of theirs. The name and the verdict are given
; from memory: the text was not at hand.
;
;   ./elide outcomes examples/litmus/one-value.asm --cores 2 --entry first,second --show "eax@0 ebx@0 edx@0"

first:  xbegin .failed
        mov ebx, [x]
        mov edx, [x]
        xend
.failed: nop
        hlt

second: mov dword [x], 1
        hlt

section .data
x:      dd 0

; elide: outcomes --cores 2 --entry first,second --show "eax@0 ebx@0 edx@0"
; expect: exactly 0 0 0 | 0 1 1 | 6 0 0
; elide: outcomes --cores 2 --entry first,second --show "eax@0 ebx@0 edx@0" --store-buffer 2
; expect: exactly 0 0 0 | 0 1 1 | 6 0 0
; elide: outcomes --cores 2 --entry first,second --show "eax@0 ebx@0 edx@0" --store-buffer 8
; expect: exactly 0 0 0 | 0 1 1 | 6 0 0
