; One order of the stores to a place (iwp2.6).
;
; Cores 0 and 1 store to x; that core 2 sees 1 and then 2, and core 3 sees 2 and then 1, is forbidden. iwp2.6 of Owens,
; Sarkar and Sewell, "A Better x86 Memory Model: x86-TSO", 2009. The name and the verdict are given from memory: the text
; was not at hand.
;
;   ./elide outcomes examples/litmus/one-order.asm --cores 4 --entry first,second,third,fourth --show "eax@2 ebx@2 eax@3 ebx@3"

first:  mov dword [x], 1
        hlt

second: mov dword [x], 2
        hlt

third:  mov eax, [x]
        mov ebx, [x]
        hlt

fourth: mov eax, [x]
        mov ebx, [x]
        hlt

section .data
x:      dd 0

; elide: outcomes --cores 4 --entry first,second,third,fourth --show "eax@2 ebx@2 eax@3 ebx@3"
; expect: never 1 2 2 1 | 2 1 1 2
; elide: outcomes --cores 4 --entry first,second,third,fourth --show "eax@2 ebx@2 eax@3 ebx@3" --store-buffer 2
; expect: never 1 2 2 1 | 2 1 1 2
; elide: outcomes --cores 4 --entry first,second,third,fourth --show "eax@2 ebx@2 eax@3 ebx@3" --store-buffer 8
; expect: never 1 2 2 1 | 2 1 1 2
