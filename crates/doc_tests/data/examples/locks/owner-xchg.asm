; The right form of examples/locks/owner.asm: the owner takes its lock by XCHG.
;
; XCHG with memory waits until the core's stores are in memory, and its own is there at once: it aborts the transaction before
; the owner loads the counter. MFENCE behind a plain store would do the same. Each adds 1 once.
;
;   ./elide outcomes examples/locks/owner-xchg.asm --cores 2 --entry owner,other --show count

owner:  mov eax, 1
        xchg eax, [mutex]
        mov edx, [count]
        inc edx
        mov [count], edx
        mov dword [mutex], 0
        hlt

other:  xbegin other
        cmp dword [mutex], 0
        jne .busy
        mov edx, [count]
        inc edx
        mov [count], edx
        xend
        hlt
.busy:  xabort 0xff

section .data
mutex:  dd 0
        align 64
count:  dd 0

; elide: outcomes --cores 2 --entry owner,other --show count
; expect: exactly 2
; elide: outcomes --cores 2 --entry owner,other --show count --store-buffer 1
; expect: exactly 2
; elide: outcomes --cores 2 --entry owner,other --show count --store-buffer 2
; expect: exactly 2
; elide: outcomes --cores 2 --entry owner,other --show count --store-buffer 8
; expect: exactly 2
; elide: run --cores 2 --entry owner,other --store-buffer 1 --in-turn --show count
; expect: line core 0 stop:HLT ...
; expect: line core 1 stop:HLT ...
; expect: line count=00000002 2
