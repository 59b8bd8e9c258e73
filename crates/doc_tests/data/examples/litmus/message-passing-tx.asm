; Message passing, with the two loads in a transaction.
;
; A reader that commits loaded both at one moment. Where a store comes between its loads and its end, it is aborted, and
; shows the status of a conflict, 6.
; Look for a flag of 1 with a message of 0: there is none. A flag of 0 with a message of 1 is the moment between the stores.
;
;   ./elide outcomes examples/litmus/message-passing-tx.asm --cores 2 --entry writer,reader --show "eax@1 ebx@1"

writer: mov dword [message], 1
        mov dword [flag], 1
        hlt

reader: xbegin failed
        mov eax, [flag]
        mov ebx, [message]
        xend
failed: hlt

section .data
message: dd 0
        align 64
flag:   dd 0

; elide: outcomes --cores 2 --entry writer,reader --show "eax@1 ebx@1"
; expect: exactly 0 0 | 0 1 | 1 1 | 6 0
; elide: outcomes --cores 2 --entry writer,reader --show "eax@1 ebx@1" --store-buffer 2
; expect: exactly 0 0 | 0 1 | 1 1 | 6 0
; elide: outcomes --cores 2 --entry writer,reader --show "eax@1 ebx@1" --store-buffer 8
; expect: exactly 0 0 | 0 1 | 1 1 | 6 0
