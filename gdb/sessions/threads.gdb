# program: threads.c
# not under QEMU
set remote exec-file threads
break sum_up if which == 1
run
backtrace 2
set scheduler-locking on
tbreak 39
thread apply 1 -q continue
info threads
print sums
thread 2
next
next
next
print sums
info threads
delete
finish
print sums[1]
set scheduler-locking off
continue
info threads
start
next
kill
info threads
run
