; Read to write causality (RWC).
;
; Core 1 sees the store of core 0 and not that of core 2, which loads 0 of x: allowed where the store of core 2 may be
; pending. RWC of the later collections of litmus tests (Maranget, Sarkar and Sewell). The name and the verdict are given
; from memory: the text was not at hand.
;
;   ./elide outcomes examples/litmus/rwc.asm --cores 3 --entry first,second,third --show "eax@1 ebx@1 eax@2"

first:  mov dword [x], 1
        hlt

second: mov eax, [x]
        mov ebx, [y]
        hlt

third:  mov dword [y], 1
        mov eax, [x]
        hlt

section .data
x:      dd 0
        align 64
y:      dd 0

; elide: outcomes --cores 3 --entry first,second,third --show "eax@1 ebx@1 eax@2"
; expect: exactly 0 0 0 | 0 0 1 | 0 1 0 | 0 1 1 | 1 0 1 | 1 1 0 | 1 1 1
; elide: outcomes --cores 3 --entry first,second,third --show "eax@1 ebx@1 eax@2" --store-buffer 2
; expect: exactly 0 0 0 | 0 0 1 | 0 1 0 | 0 1 1 | 1 0 0 | 1 0 1 | 1 1 0 | 1 1 1
; elide: outcomes --cores 3 --entry first,second,third --show "eax@1 ebx@1 eax@2" --store-buffer 8
; expect: exactly 0 0 0 | 0 0 1 | 0 1 0 | 0 1 1 | 1 0 0 | 1 0 1 | 1 1 0 | 1 1 1
