; WRONG where stores may be pending: a lock that one core owns, and that the other elides.
;
; Nobody but the owner takes the lock, so that a plain store seems to be enough for it; the other core runs its section in a
; transaction that has read the lock, so that the owner's store aborts it. Each adds 1 once. On memory without store buffers
; no increment is lost. With them the owner may go in while its store to the lock is pending: it hits nobody yet, the
; transaction commits between the owner's load and its store, and the increment is lost. What mends it is in
; owner-xchg.asm.
;
;   ./elide outcomes examples/locks/owner.asm --cores 2 --entry owner,other --show count

owner:  mov dword [mutex], 1
        mov edx, [count]
        inc edx
        mov [count], edx
        mov dword [mutex], 0
        hlt

other:  xbegin other
        cmp dword [mutex], 0
        jne .busy
        mov edx, [count]
        inc edx
        mov [count], edx
        xend
        hlt
.busy:  xabort 0xff

section .data
mutex:  dd 0
        align 64
count:  dd 0

; elide: outcomes --cores 2 --entry owner,other --show count
; expect: exactly 2
; elide: outcomes --cores 2 --entry owner,other --show count --store-buffer 1
; expect: exactly 1 | 2
; elide: outcomes --cores 2 --entry owner,other --show count --store-buffer 2
; expect: exactly 1 | 2
; elide: outcomes --cores 2 --entry owner,other --show count --store-buffer 8
; expect: exactly 1 | 2
; elide: run --cores 2 --entry owner,other --store-buffer 1 --steps "0 0 0 1 1 1 1 1 1 1 0 0 0 0 0 0 1" --show count
; expect: line core 0 stop:HLT ...
; expect: line core 1 stop:HLT ...
; expect: line count=00000001 1
