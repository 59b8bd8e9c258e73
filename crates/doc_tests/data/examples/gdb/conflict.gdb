# Two cores add to one word, each in a transaction; the commit of core 1 dooms core 0 (docs/GDB.md).
set pagination off
set confirm off
set architecture i386
target remote | "$ELIDE" gdb ../conflict.img --cores 2 --steps "0 0 1 1 1 1 1 0"
info threads
# to the end of core 1's transaction, along the schedule
break *0x111
continue
info threads
print $tm_state
monitor sets
stepi
monitor why
print $tm_step
# back to before the commit: core 0 can still commit
reverse-stepi
monitor why
thread 1
print $tm_state
x/wx 0x1000
delete
continue
info threads
monitor history 3
reverse-continue
info threads
detach
