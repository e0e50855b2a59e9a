#!/bin/sh
# Makes `image`. The compiler is Debian's package gcc-riscv64-unknown-elf.
riscv64-unknown-elf-gcc -march=rv32ia -mabi=ilp32 -nostdlib -Os -s -o image program.c
