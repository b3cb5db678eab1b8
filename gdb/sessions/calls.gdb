# program: recursion.c
# deep stacks, conditions, counts of passes, commands, finish, and functions that gdb calls
break fibonacci if number == 0
ignore 1 2
continue
backtrace
frame 3
info args
finish
print moves
disable 1
break queens
commands
silent
printf "columns %u\n", columns
end
continue
continue
backtrace 2
delete
print fibonacci(10)
print moves
call hanoi(3, 1, 2, 3)
print moves
finish
continue
