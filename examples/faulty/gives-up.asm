; WRONG: the fallback gives up where the status has the bit of capacity.
;
; The section stores to one line, so its author takes that bit for a fault of the program that nothing mends. But a line may
; leave the cache for reasons that are not the program's, and then the work is not done. No order of steps shows it; events do,
; and of these an eviction alone. Each core adds 1 three times; the counter is 6 in the end on two cores, if all is done. Its
; fixed form is examples/fixed/any-status.asm.
;
;   ./elide hunt examples/faulty/gives-up.asm --cores 2 --check "count == 6" --events draw
;   ./elide outcomes examples/faulty/gives-up.asm --cores 2 --entry once,once --show count --events eviction

start:  mov esi, 3
.next:  xbegin .fall
        cmp dword [mutex], 0
        jne .busy
        inc dword [count]
        xend
        jmp .done
.busy:  xabort 0xff
.fall:  test eax, 8
        jz .lock
        hlt
.lock:  mov eax, 1
        xchg eax, [mutex]
        test eax, eax
        jz .own
        pause
        jmp .lock
.own:   mov ebx, [count]
        inc ebx
        mov [count], ebx
        mov dword [mutex], 0
.done:  dec esi
        jnz .next
        hlt

once:   mov esi, 1
        jmp start.next

section .data
mutex:  dd 0
        align 64
count:  dd 0

; elide: hunt --cores 2 --check "count == 6" --events draw
; expect: status 3
; expect: line run ... fails --check count == 6
; elide: outcomes --cores 2 --entry once,once --show count --events interrupt,snoop --mem 12288 --reads 4 --writes 4
; expect: exactly 2
; elide: outcomes --cores 2 --entry once,once --show count --events eviction --mem 12288 --reads 4 --writes 4
; expect: exactly 0 | 1 | 2
