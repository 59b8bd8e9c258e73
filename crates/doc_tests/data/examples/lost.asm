; Two plain increments that lose one.
;
; Each core loads the counter, adds 1 and stores it. Step by step in turn, both load 0, and both store 1.
; Look at the last line: the counter is 1 after two increments.
;
;   ./elide run examples/lost.asm --cores 2 --steps "0 1 0 1 0 1 0 1" --dump 0x140:4

start:  mov eax, [count]
        add eax, 1
        mov [count], eax
        hlt

section .data
count:  dd 0
