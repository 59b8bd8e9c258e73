; Store buffering, with a locked ADD to another place between the store and the load.
;
; A locked instruction waits until the core's stores are in memory, whatever its place is: two zeros are forbidden. After
; SB of Owens, Sarkar and Sewell, "A Better x86 Memory Model: x86-TSO", 2009. The name and the verdict are given from
; memory: the text was not at hand.
;
;   ./elide outcomes examples/litmus/store-buffering-lock.asm --cores 2 --entry first,second --show "eax@0 eax@1"

first:  mov dword [x], 1
        lock add dword [u], 1
        mov eax, [y]
        hlt

second: mov dword [y], 1
        lock add dword [v], 1
        mov eax, [x]
        hlt

section .data
x:      dd 0
        align 64
y:      dd 0
        align 64
u:      dd 0
        align 64
v:      dd 0

; elide: outcomes --cores 2 --entry first,second --show "eax@0 eax@1"
; expect: exactly 0 1 | 1 0 | 1 1
; elide: outcomes --cores 2 --entry first,second --show "eax@0 eax@1" --store-buffer 2
; expect: exactly 0 1 | 1 0 | 1 1
; elide: outcomes --cores 2 --entry first,second --show "eax@0 eax@1" --store-buffer 8
; expect: exactly 0 1 | 1 0 | 1 1
