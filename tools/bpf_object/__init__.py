"""Reads what clang makes of a BPF program: `elf`, then `btf` and `insns`, then `unit`, which puts them together."""
