; Read to write causality, with MFENCE on the core that stores and loads.
;
; With its store in memory before it loads, 1, 0 and 0 is forbidden. RWC of the later collections of litmus tests
; (Maranget, Sarkar and Sewell). The name and the verdict are given from memory: the text was not at hand.
;
;   ./elide outcomes examples/litmus/rwc-mfence.asm --cores 3 --entry first,second,third --show "eax@1 ebx@1 eax@2"

first:  mov dword [x], 1
        hlt

second: mov eax, [x]
        mov ebx, [y]
        hlt

third:  mov dword [y], 1
        mfence
        mov eax, [x]
        hlt

section .data
x:      dd 0
        align 64
y:      dd 0

; elide: outcomes --cores 3 --entry first,second,third --show "eax@1 ebx@1 eax@2"
; expect: exactly 0 0 0 | 0 0 1 | 0 1 0 | 0 1 1 | 1 0 1 | 1 1 0 | 1 1 1
; elide: outcomes --cores 3 --entry first,second,third --show "eax@1 ebx@1 eax@2" --store-buffer 2
; expect: exactly 0 0 0 | 0 0 1 | 0 1 0 | 0 1 1 | 1 0 1 | 1 1 0 | 1 1 1
; elide: outcomes --cores 3 --entry first,second,third --show "eax@1 ebx@1 eax@2" --store-buffer 8
; expect: exactly 0 0 0 | 0 0 1 | 0 1 0 | 0 1 1 | 1 0 1 | 1 1 0 | 1 1 1
