# A schedule goes on past the steps of a core that has stopped, and an empty one is at its end at once (schedule.asm).
set pagination off
set confirm off
set architecture i386
target remote | "$ELIDE" gdb schedule.asm --cores 2 --steps "0 0 0 0 0 1 1 1 1"
continue
print $tm_step
thread 2
print $ebx
monitor history 9
# a core that has stopped makes no step
thread 1
stepi
print $tm_step
thread 2
stepi
print $tm_step
reverse-continue
detach
target remote | "$ELIDE" gdb schedule.asm --cores 2 --steps ""
continue
print $tm_step
stepi
print $tm_step
detach
