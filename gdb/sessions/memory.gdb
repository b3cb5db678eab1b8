# program: crc32.c
# memory and registers: read, written, searched, and loaded again
break shifted
continue
print crc
print bits
x/s text
x/9cb text
set var table[3] = 0x11223344
x/4xb &table[3]
print/x table[3]
info registers a0 a1
set $a1 = 7
print/x $a1
print $pc
find &text, +10, '5', '6'
print $_ == (char *)&text[4]
delete
tbreak main
jump main
continue
