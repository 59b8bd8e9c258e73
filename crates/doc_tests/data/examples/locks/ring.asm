; One writer, one reader, and a ring of two places: right without a fence, whatever is pending.
;
; The writer fills a place and then counts it in `tail`; the reader takes it out and then counts it in `head`. Each count
; comes to memory behind what it speaks of, since stores stay in their order, and loads do, too. Three numbers are sent: 1, 2
; and 3. Their sum is right, however late the stores are.
;
;   ./elide outcomes examples/locks/ring.asm --cores 2 --entry writer,reader --show sum

writer: mov ebx, 0
        mov ecx, 1              ; what is sent
.full:  mov eax, ebx
        sub eax, [head]
        cmp eax, 2
        jb .room
        pause
        jmp .full
.room:  mov eax, ebx
        and eax, 1
        mov [slots+eax*4], ecx
        inc ebx
        mov [tail], ebx
        inc ecx
        cmp ecx, 4
        jne .full
        hlt

reader: mov ebx, 0
        mov esi, 0              ; the sum of what came
.none:  cmp ebx, [tail]
        jne .some
        pause
        jmp .none
.some:  mov eax, ebx
        and eax, 1
        add esi, [slots+eax*4]
        inc ebx
        mov [head], ebx
        cmp ebx, 3
        jne .none
        mov [sum], esi
        hlt

section .data
head:   dd 0
        align 64
tail:   dd 0
        align 64
slots:  dd 0, 0
        align 64
sum:    dd 0

; elide: outcomes --cores 2 --entry writer,reader --show sum
; expect: exactly 6
; elide: outcomes --cores 2 --entry writer,reader --show sum --store-buffer 1
; expect: exactly 6
; elide: outcomes --cores 2 --entry writer,reader --show sum --store-buffer 2
; expect: exactly 6
; elide: outcomes --cores 2 --entry writer,reader --show sum --store-buffer 8
; expect: exactly 6
; elide: run --cores 2 --entry writer,reader --store-buffer 1 --steps "0 0 0 0 0 0 0 0 0 0 0 0 0 0 0 0 0 0 0 0 0 0 0 0 0 0 0 0 0 0 0d 1 1 1 1 1 1 1 1 1 1 1 1 1 1 1 1 1 1 0 0 0 0 0 0 0 0 0 0 0 0 0 0 1 1 1 1 1 1 1 1 1 1 1 1 1 1 1 1 1" --show sum
; expect: line core 0 stop:HLT ...
; expect: line core 1 stop:HLT ...
; expect: line sum=00000006 6
