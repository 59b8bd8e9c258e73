# A core that stops by INT3, #UD or #DE is told by the signal that is its own, and the others go on (stops.asm).
set pagination off
set confirm off
set architecture i386
target remote | "$ELIDE" gdb stops.asm --cores 4
continue
info threads
continue
continue
continue
info threads
detach
