; A store that is older for its own core, and comes to memory last.
;
; Core 0 stores 1 to x, loads it, and loads y; core 1 stores 2 to y and then to x. Without store buffers a core 0 that finds y
; at 0 has stored before core 1 does, so that x ends as 2. In the run below it finds y at 0, and its 1 comes to memory behind
; both stores of core 1: x ends as 1.
;
;   ./elide outcomes examples/litmus/late-store.asm --cores 2 --entry first,second --show "eax@0 ebx@0 x"

first:  mov dword [x], 1
        mov eax, [x]
        mov ebx, [y]
        hlt

second: mov dword [y], 2
        mov dword [x], 2
        hlt

section .data
x:      dd 0
        align 64
y:      dd 0

; elide: outcomes --cores 2 --entry first,second --show "eax@0 ebx@0 x"
; expect: never 1 0 1
; elide: outcomes --cores 2 --entry first,second --show "eax@0 ebx@0 x" --store-buffer 2
; expect: exactly 1 0 1 | 1 0 2 | 1 2 1 | 1 2 2 | 2 2 2
; elide: outcomes --cores 2 --entry first,second --show "eax@0 ebx@0 x" --store-buffer 8
; expect: exactly 1 0 1 | 1 0 2 | 1 2 1 | 1 2 2 | 2 2 2
; elide: run --cores 2 --entry first,second --store-buffer 2 --steps "0 0 0 1 1 1d 1d 1 0d 0" --show x
; expect: line core 0 stop:HLT eax=00000001 ecx=00000002 edx=00000000 ebx=00000000 ...
; expect: line x=00000001 1
