# A breakpoint on the label of a fallback: the core comes there by its abort (../fallback.asm, whose label is at 10ch).
set pagination off
set confirm off
set architecture i386
target remote | "$ELIDE" gdb ../fallback.asm --cores 2
break *0x10c
continue
print $tm_state
print $tm_status
continue
reverse-continue
reverse-continue
continue
delete
watch *(int *) 0x140
continue
print *(int *) 0x140
continue
continue
reverse-continue
print *(int *) 0x140
detach
