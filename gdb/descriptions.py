"""What gdb is told of the target: its registers, its memory, and which signal stands for an exception."""
from __future__ import annotations

from process import MEMORY, Process, Thread

SIGINT, SIGILL, SIGTRAP, SIGKILL, SIGBUS, SIGSEGV, SIGSYS = 2, 4, 5, 9, 10, 11, 12

NAMES = ('zero ra sp gp tp t0 t1 t2 fp s1 a0 a1 a2 a3 a4 a5 a6 a7 s2 s3 s4 s5 s6 s7 s8 s9 s10 s11 t3 t4 t5 t6').split()
POINTERS = {'sp': 'data_ptr', 'gp': 'data_ptr', 'tp': 'data_ptr', 'fp': 'data_ptr', 'ra': 'code_ptr'}
REGISTERS = '\n'.join(f'    <reg name="{name}" bitsize="32" regnum="{number}" type="{POINTERS.get(name, "int")}"/>'
                      for number, name in enumerate(NAMES))

# without `none` a gdb whose default is Linux steps by breakpoints of its own
TARGET = f'''<?xml version="1.0"?>
<!DOCTYPE target SYSTEM "gdb-target.dtd">
<target version="1.0">
  <architecture>riscv:rv32</architecture>
  <osabi>none</osabi>
  <feature name="org.gnu.gdb.riscv.cpu">
{REGISTERS}
    <reg name="pc" bitsize="32" regnum="32" type="code_ptr"/>
  </feature>
</target>
'''.encode()

MEMORY_MAP = f'''<?xml version="1.0"?>
<!DOCTYPE memory-map PUBLIC "+//IDN gnu.org//DTD GDB Memory Map V1.0//EN" "http://sourceware.org/gdb/gdb-memory-map.dtd">
<memory-map>
  <memory type="ram" start="0x0" length="{MEMORY:#x}"/>
</memory-map>
'''.encode()

EBREAK, ECALL = 0x00100073, 0x00000073
LOAD, STORE, BRANCH, JALR, JAL = 0x03, 0x23, 0x63, 0x67, 0x6f
# for each opcode the kinds of instruction that there are
KINDS = {LOAD: (0, 1, 2, 4, 5), STORE: (0, 1, 2), BRANCH: (0, 1, 4, 5, 6, 7), JALR: (0,), JAL: range(8)}


def signal_of_word(word: int) -> int:
    """The signal for an exception of an instruction."""
    opcode, kind = word & 0x7f, word >> 12 & 7
    if word == EBREAK:
        return SIGTRAP
    if word == ECALL:
        return SIGSYS
    if kind not in KINDS.get(opcode, ()):
        return SIGILL
    return SIGSEGV if opcode in (LOAD, STORE) else SIGBUS


def signal_of(process: Process, thread: Thread) -> int:
    """The signal that says why a thread stands; 0 where somebody else has suspended it."""
    if thread.reason != 'Exception':
        return SIGTRAP if thread.reason in ('Breakpoint', 'Step') else 0
    pc = process.pc_of(thread)
    if pc > MEMORY - 4:
        return SIGSEGV
    return signal_of_word(int.from_bytes(process.memory(pc, 4), 'little'))
