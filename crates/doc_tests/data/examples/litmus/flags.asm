; Two flags: each core raises its own, and waits until the other's is down, before it adds 1.
;
; Never are both inside, but where each has raised its flag before it looks at the other's, both wait for ever. No run that
; ends shows it: look at how many states have no way to an end. What mends it is in flags-turn.asm.
;
;   ./elide outcomes examples/litmus/flags.asm --cores 2 --entry first,second --show count --stuck

first:  mov eax, 1
        xchg eax, [left]
.wait:  cmp dword [right], 0
        jne .wait
        inc dword [count]
        mov dword [left], 0
        hlt

second: mov eax, 1
        xchg eax, [right]
.wait:  cmp dword [left], 0
        jne .wait
        inc dword [count]
        mov dword [right], 0
        hlt

section .data
left:   dd 0
        align 64
right:  dd 0
        align 64
count:  dd 0

; elide: outcomes --cores 2 --entry first,second --show count --stuck
; expect: status 3
; expect: line 00000002 ...
; expect: line stuck  1  0 1 0 1
; expect: line 1 outcomes in 28 states, 1 of them without a way to an end
