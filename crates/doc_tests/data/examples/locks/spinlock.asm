; A lock that XCHG takes and a plain store gives back: right, whatever is pending.
;
; XCHG with memory waits until the core's stores are in memory. The store that gives the lock back may be pending for long,
; but it comes to memory behind what was stored under the lock, since stores stay in their order: it needs no fence. Each core
; adds 1 three times, from `once` on once.
;
;   ./elide outcomes examples/locks/spinlock.asm --cores 2 --entry once,once --show count

start:  mov ebp, 3
.next:  mov eax, 1
        xchg eax, [mutex]
        test eax, eax
        jz .enter
.wait:  pause
        cmp dword [mutex], 0
        jne .wait
        jmp .next
.enter: mov edx, [count]
        inc edx
        mov [count], edx
        mov dword [mutex], 0
        dec ebp
        jnz .next
        hlt

once:   mov ebp, 1
        jmp start.next

section .data
mutex:  dd 0
        align 64
count:  dd 0

; elide: outcomes --cores 2 --entry once,once --show count
; expect: exactly 2
; elide: outcomes --cores 2 --entry once,once --show count --store-buffer 1
; expect: exactly 2
; elide: outcomes --cores 2 --entry once,once --show count --store-buffer 2
; expect: exactly 2
; elide: outcomes --cores 2 --entry once,once --show count --store-buffer 8
; expect: exactly 2
; elide: run --cores 2 --entry once,once --store-buffer 1 --in-turn --show count
; expect: line core 0 stop:HLT ...
; expect: line core 1 stop:HLT ...
; expect: line count=00000002 2
