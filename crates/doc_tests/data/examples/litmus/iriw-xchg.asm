; Independent reads of independent writes, which are made by XCHG (iwp2.7, amd7).
;
; As without XCHG: that cores 2 and 3 see the two stores in different orders is forbidden. iwp2.7 and amd7 of Owens,
; Sarkar and Sewell, "A Better x86 Memory Model: x86-TSO", 2009. The name and the verdict are given from memory: the text
; was not at hand.
;
;   ./elide outcomes examples/litmus/iriw-xchg.asm --cores 4 --entry first,second,third,fourth --show "eax@2 ebx@2 eax@3 ebx@3"

first:  mov eax, 1
        xchg eax, [x]
        hlt

second: mov eax, 1
        xchg eax, [y]
        hlt

third:  mov eax, [x]
        mov ebx, [y]
        hlt

fourth: mov eax, [y]
        mov ebx, [x]
        hlt

section .data
x:      dd 0
        align 64
y:      dd 0

; elide: outcomes --cores 4 --entry first,second,third,fourth --show "eax@2 ebx@2 eax@3 ebx@3"
; expect: exactly 0 0 0 0 | 0 0 0 1 | 0 0 1 0 | 0 0 1 1 | 0 1 0 0 | 0 1 0 1 | 0 1 1 0 | 0 1 1 1 | 1 0 0 0 | 1 0 0 1 | 1 0 1 1 | 1 1 0 0 | 1 1 0 1 | 1 1 1 0 | 1 1 1 1
; elide: outcomes --cores 4 --entry first,second,third,fourth --show "eax@2 ebx@2 eax@3 ebx@3" --store-buffer 2
; expect: exactly 0 0 0 0 | 0 0 0 1 | 0 0 1 0 | 0 0 1 1 | 0 1 0 0 | 0 1 0 1 | 0 1 1 0 | 0 1 1 1 | 1 0 0 0 | 1 0 0 1 | 1 0 1 1 | 1 1 0 0 | 1 1 0 1 | 1 1 1 0 | 1 1 1 1
; elide: outcomes --cores 4 --entry first,second,third,fourth --show "eax@2 ebx@2 eax@3 ebx@3" --store-buffer 8
; expect: exactly 0 0 0 0 | 0 0 0 1 | 0 0 1 0 | 0 0 1 1 | 0 1 0 0 | 0 1 0 1 | 0 1 1 0 | 0 1 1 1 | 1 0 0 0 | 1 0 0 1 | 1 0 1 1 | 1 1 0 0 | 1 1 0 1 | 1 1 1 0 | 1 1 1 1
