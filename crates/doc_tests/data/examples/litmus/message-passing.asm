; Message passing, without transactions.
;
; One core stores a message and then a flag, the other loads the flag and then the message (the litmus test MP of Owens,
; Sarkar and Sewell, "A Better x86 Memory Model: x86-TSO", 2009).
; Look for a flag of 1 with a message of 0: there is none.
;
;   ./elide outcomes examples/litmus/message-passing.asm --cores 2 --entry writer,reader --show "eax@1 ebx@1"

writer: mov dword [message], 1
        mov dword [flag], 1
        hlt

reader: mov eax, [flag]
        mov ebx, [message]
        hlt

section .data
message: dd 0
        align 64
flag:   dd 0

; elide: outcomes --cores 2 --entry writer,reader --show "eax@1 ebx@1"
; expect: exactly 0 0 | 0 1 | 1 1
; elide: outcomes --cores 2 --entry writer,reader --show "eax@1 ebx@1" --store-buffer 2
; expect: exactly 0 0 | 0 1 | 1 1
; elide: outcomes --cores 2 --entry writer,reader --show "eax@1 ebx@1" --store-buffer 8
; expect: exactly 0 0 | 0 1 | 1 1
