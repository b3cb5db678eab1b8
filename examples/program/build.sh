# `sh build.sh clang` or `sh build.sh gcc` makes, in out/: sort.elf, and sort.image, which is that file as a line of a schedule.
set -e
mkdir -p out
# -n: no pages of 4,096 bytes in the file, which makes it small
flags='-march=rv32im -mabi=ilp32 -Os -ffreestanding -ffunction-sections -nostdlib -T program.ld -Wl,-n'
case $1 in
clang)
    clang --target=riscv32-unknown-elf -fuse-ld=lld $flags start.S main.c -o out/sort.elf ;;
gcc)
    riscv64-unknown-elf-gcc $flags start.S main.c -o out/sort.elf ;;
*)
    echo 'usage: sh build.sh clang | gcc' >&2
    exit 1 ;;
esac
echo "image sort $(od -An -v -tx1 out/sort.elf | tr -d ' \n')" > out/sort.image
