; The right form of examples/locks/peterson.asm: MFENCE between the two stores and the look at the other's flag.
;
; MFENCE waits until the core's stores are in memory: what a core finds there is younger than its own word. Each core adds 1
; three times, from `once` on once.
;
;   ./elide outcomes examples/locks/peterson-mfence.asm --cores 2 --entry once,once --show count

start:  mov ebp, 3
.begin: mov esi, eax            ; my flag: 64 times my number
        shl esi, 6
        mov edi, 64             ; the other's
        sub edi, esi
        mov ebx, 1              ; the other's number
        sub ebx, eax
.next:  mov dword [flag+esi], 1
        mov [turn], ebx
        mfence
.wait:  cmp dword [flag+edi], 0
        je .enter
        cmp [turn], ebx
        jne .enter
        pause
        jmp .wait
.enter: mov edx, [count]
        inc edx
        mov [count], edx
        mov dword [flag+esi], 0
        dec ebp
        jnz .next
        hlt

once:   mov ebp, 1
        jmp start.begin

section .data
flag:   dd 0
        align 64
        dd 0
        align 64
turn:   dd 0
        align 64
count:  dd 0

; elide: outcomes --cores 2 --entry once,once --show count
; expect: exactly 2
; elide: outcomes --cores 2 --entry once,once --show count --store-buffer 1
; expect: exactly 2
; elide: outcomes --cores 2 --entry once,once --show count --store-buffer 2
; expect: exactly 2
; elide: outcomes --cores 2 --entry once,once --show count --store-buffer 8
; expect: exactly 2
; elide: run --cores 2 --entry once,once --store-buffer 1 --in-turn --show count
; expect: line core 0 stop:HLT ...
; expect: line core 1 stop:HLT ...
; expect: line count=00000002 2
