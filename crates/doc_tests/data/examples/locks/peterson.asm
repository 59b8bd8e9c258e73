; WRONG where stores may be pending: Peterson's lock on two cores, without a fence.
;
; A core raises its flag, says in `turn` that the other goes first, and waits while the other's flag is up and the turn is
; the other's. Each core adds 1 three times, from `once` on once. On memory without store buffers no increment is lost. With
; them a core may look at the other's flag before its own store to `turn` is in memory: in the run below core 0 does, and goes
; in while core 1's flag is not up yet. Then core 1 says that core 0 goes first, core 0's older word to the contrary comes to
; memory behind it, and core 1 goes in, too. What mends it is in peterson-mfence.asm.
;
;   ./elide outcomes examples/locks/peterson.asm --cores 2 --entry once,once --show count

start:  mov ebp, 3
.begin: mov esi, eax            ; my flag: 64 times my number
        shl esi, 6
        mov edi, 64             ; the other's
        sub edi, esi
        mov ebx, 1              ; the other's number
        sub ebx, eax
.next:  mov dword [flag+esi], 1
        mov [turn], ebx
.wait:  cmp dword [flag+edi], 0
        je .enter
        cmp [turn], ebx
        jne .enter
        pause
        jmp .wait
.enter: mov edx, [count]
        inc edx
        mov [count], edx
        mov dword [flag+esi], 0
        dec ebp
        jnz .next
        hlt

once:   mov ebp, 1
        jmp start.begin

section .data
flag:   dd 0
        align 64
        dd 0
        align 64
turn:   dd 0
        align 64
count:  dd 0

; elide: outcomes --cores 2 --entry once,once --show count
; expect: exactly 2
; elide: outcomes --cores 2 --entry once,once --show count --store-buffer 1
; expect: exactly 1 | 2
; elide: outcomes --cores 2 --entry once,once --show count --store-buffer 2
; expect: exactly 1 | 2
; elide: outcomes --cores 2 --entry once,once --show count --store-buffer 8
; expect: exactly 1 | 2
; elide: run --cores 2 --entry once,once --store-buffer 1 --steps "0 0 0 0 0 0 0 0 0 0 0 0 0 0 0 1 1 1 1 1 1 1 1 1 1 1 1 1 1d 0 0 1 1 1 0 0 0 0 0 0 1 1 1 1 1 1 1 1" --show count
; expect: line core 0 stop:HLT ...
; expect: line core 1 stop:HLT ...
; expect: line count=00000001 1
