# No breakpoint and no watched change is passed, whichever core comes there (points.asm).
set pagination off
set confirm off
set architecture i386
target remote | "$ELIDE" gdb points.asm --cores 4
# four cores, and each is told
break *0x101
continue
continue
continue
continue
delete
# by steps: 7 stands between
thread 2
watch *(int *) 0x140
stepi
stepi
stepi
reverse-stepi
reverse-stepi
# behind a breakpoint that is stepped over first
break *0x102
continue
continue
continue
continue
info threads
delete
continue
info threads
detach
