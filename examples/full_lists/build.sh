#!/bin/sh
# Makes `image`: the code at 0x10000, and 256 bytes at 0x20000. The compiler and the linker are Debian's packages clang and lld.
clang --target=riscv32-unknown-elf -march=rv32ia -mabi=ilp32 -c -o program.o program.S
ld.lld -s -n -Ttext=0x10000 -Tbss=0x20000 -o image program.o
rm program.o
