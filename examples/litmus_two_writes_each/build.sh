#!/bin/sh
# Makes `image`: no register points at the data (--no-relax). The compiler is Debian's package gcc-riscv64-unknown-elf.
riscv64-unknown-elf-gcc -march=rv32ia -mabi=ilp32 -nostdlib -s -Wl,--no-relax -o image program.S
