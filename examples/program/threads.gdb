# a session of gdb with two threads
set trace-commands on
target extended-remote 127.0.0.1:3335
set remote exec-file threads
break second
run
info threads
thread apply all backtrace 1
set scheduler-locking on
step
next
next
print sums
set scheduler-locking off
delete
continue
