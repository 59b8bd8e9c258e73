; Write to read causality (WRC, iwp2.5, amd8).
;
; Core 1 sees the store of core 0 and stores; core 2 sees that store. Then it sees the first one too: ones on core 1 and
; 2 with a zero in EBX are forbidden, as all cores but the storing one see a store at once. iwp2.5 and amd8 of Owens,
; Sarkar and Sewell, "A Better x86 Memory Model: x86-TSO", 2009. The name and the verdict are given from memory: the text
; was not at hand.
;
;   ./elide outcomes examples/litmus/wrc.asm --cores 3 --entry first,second,third --show "eax@1 eax@2 ebx@2"

first:  mov dword [x], 1
        hlt

second: mov eax, [x]
        mov dword [y], 1
        hlt

third:  mov eax, [y]
        mov ebx, [x]
        hlt

section .data
x:      dd 0
        align 64
y:      dd 0

; elide: outcomes --cores 3 --entry first,second,third --show "eax@1 eax@2 ebx@2"
; expect: exactly 0 0 0 | 0 0 1 | 0 1 0 | 0 1 1 | 1 0 0 | 1 0 1 | 1 1 1
; elide: outcomes --cores 3 --entry first,second,third --show "eax@1 eax@2 ebx@2" --store-buffer 2
; expect: exactly 0 0 0 | 0 0 1 | 0 1 0 | 0 1 1 | 1 0 0 | 1 0 1 | 1 1 1
; elide: outcomes --cores 3 --entry first,second,third --show "eax@1 eax@2 ebx@2" --store-buffer 8
; expect: exactly 0 0 0 | 0 0 1 | 0 1 0 | 0 1 1 | 1 0 0 | 1 0 1 | 1 1 1
