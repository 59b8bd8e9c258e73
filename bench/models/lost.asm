; Each core loads the counter, adds 1 and stores it.
start:  mov eax, [count]
        add eax, 1
        mov [count], eax
        hlt

section .data
count:  dd 0
