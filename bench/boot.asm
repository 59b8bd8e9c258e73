; A loop of bench/steps, `loop.inc`, as a boot sector, in 32-bit protected mode. Ends by Bochs's power-off port.
bits 16
org 0x7c00
        cli
        lgdt [table_register]
        mov eax, cr0
        or al, 1
        mov cr0, eax
        jmp 8:protected

bits 32
protected:
        mov ax, 16
        mov ds, ax
        mov ss, ax
        mov esp, 0x3000
%include "loop.inc"
        mov dx, 0x8900
        mov esi, shutdown
.off:   lodsb
        out dx, al
        test al, al
        jnz .off
        hlt

shutdown: db "Shutdown", 0

align 8
table:  dq 0
        dq 0x00cf9a000000ffff   ; code: flat, 32-bit
        dq 0x00cf92000000ffff   ; data: flat, 32-bit
table_register:
        dw 23
        dd table

times 510 - ($ - $$) db 0
dw 0xaa55
