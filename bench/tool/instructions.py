"""Compares the machine with QEMU: each instruction of RV32IM that computes, loads, stores or jumps, on random operands.

programs/instructions.c is compiled for each seed (1, 2, and so on), once to be played by the program, which ends at an ebreak, and
once for qemu-riscv32; what both leave is compared byte by byte. It wants riscv64-unknown-elf-gcc and qemu-riscv32 (Debian:
gcc-riscv64-unknown-elf, qemu-user). Of the 48 instructions ecall and ebreak alone aren't compared: the program ends by them.
"""
import base64
import pathlib
import subprocess
import tempfile

from tool.measuring import HERE, TOP, check, holds
from tool.schedules import repeated

FLAGS = ["-march=rv32im", "-mabi=ilp32", "-O2", "-ffreestanding", "-nostdlib", "-Wl,--no-warn-rwx-segments,--no-relax"]
TICKS = 300_000


def compiled(folder, seed, hosted):
    """The ELF file of the program, for QEMU or for the machine."""
    elf = f"{folder}/{'hosted' if hosted else 'bare'}.elf"
    more = ["-DHOSTED"] if hosted else ["-T", f"{HERE}/programs/program.ld", f"{TOP}/examples/program/start.S"]
    words = ["riscv64-unknown-elf-gcc", *FLAGS, f"-DSEED={seed}", *more, f"{HERE}/programs/instructions.c", "-lgcc", "-o", elf]
    subprocess.run(words, check=True)
    return elf


def in_qemu(folder, seed):
    return subprocess.run(["qemu-riscv32", compiled(folder, seed, True)], check=True, stdout=subprocess.PIPE).stdout


def place_of(elf):
    """Where its results stand, and how many bytes they are."""
    for line in subprocess.run(["riscv64-unknown-elf-nm", "-S", elf], check=True, stdout=subprocess.PIPE, text=True).stdout.splitlines():
        if line.endswith(" results"):
            return [int(word, 16) for word in line.split()[:2]]


def in_machine(program, folder, seed):
    elf, image, schedule = compiled(folder, seed, False), f"{folder}/bare.bin", f"{folder}/bare.schedule"
    subprocess.run(["riscv64-unknown-elf-objcopy", "-O", "binary", elf, image], check=True)
    start = 'send A Processes start "" "bare" [] [] true\nsend A RunControl resume "P1.1" 0 1\nrounds 1\n'
    read = 'rounds 1\nsend A Memory get "P1" %d 1 %d 0\nrounds 1\n' % tuple(place_of(elf))
    lines = f"image bare {pathlib.Path(image).read_bytes().hex()}\nchain A 0\nopen A\nrounds 1\n" + start + repeated(TICKS, "tick P1.1") + read
    pathlib.Path(schedule).write_text(lines)
    log = subprocess.run([program, "chain", schedule], check=True, stdout=subprocess.PIPE, text=True).stdout
    holds("the program didn't come to its end", '"Exception"' in log)
    return base64.b64decode(log.splitlines()[-2].split('"')[1])


def arguments(words):
    words.add_argument("--seeds", type=int, default=20)


def measure(given):
    words = 0
    for seed in range(1, given.seeds + 1):
        with tempfile.TemporaryDirectory() as folder:
            ours, theirs = in_machine(given.program, folder, seed), in_qemu(folder, seed)
            differ = [place for place in range(0, len(theirs), 4) if ours[place:place + 4] != theirs[place:place + 4]]
            if len(ours) != len(theirs) or differ:
                return check(f"seed {seed}: {len(differ)} of {len(theirs) // 4} words differ, the first at {differ[:1]}", False)
            words += sum(any(theirs[place:place + 4]) for place in range(0, len(theirs), 4))
    return check(f"{given.seeds} seeds: all results are the same, {words:,} of them not 0", True)
