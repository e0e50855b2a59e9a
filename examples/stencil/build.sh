#!/bin/sh
# Makes `image`: no register points at the data (--no-relax), and the names of variables are kept. The compiler is Debian's package
# gcc-riscv64-unknown-elf.
riscv64-unknown-elf-gcc -march=rv32ia -mabi=ilp32 -nostdlib -Os -Wl,--no-relax -o image program.c
