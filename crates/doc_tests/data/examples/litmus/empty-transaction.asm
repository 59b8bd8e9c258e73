; Store buffering, with a transaction that does nothing between the store and the load.
;
; A transaction that commits waits until the core's stores are in memory: two zeros are forbidden.
; examples/litmus/aborted-is-no-fence.asm shows one that aborts. After Chong, Sorensen and Wickerson, "The Semantics of
; Transactions and Weak Memory in x86, Power, ARM, and C++", 2018: the verdict follows from their axioms, and is in no
; table of theirs. The name and the verdict are given from memory: the text was not at hand.
;
;   ./elide outcomes examples/litmus/empty-transaction.asm --cores 2 --entry first,second --show "ebx@0 ebx@1"

first:  mov dword [x], 1
        xbegin .failed
        xend
.failed: mov ebx, [y]
        hlt

second: mov dword [y], 1
        xbegin .failed
        xend
.failed: mov ebx, [x]
        hlt

section .data
x:      dd 0
        align 64
y:      dd 0

; elide: outcomes --cores 2 --entry first,second --show "ebx@0 ebx@1"
; expect: exactly 0 1 | 1 0 | 1 1
; elide: outcomes --cores 2 --entry first,second --show "ebx@0 ebx@1" --store-buffer 2
; expect: exactly 0 1 | 1 0 | 1 1
; elide: outcomes --cores 2 --entry first,second --show "ebx@0 ebx@1" --store-buffer 8
; expect: exactly 0 1 | 1 0 | 1 1
