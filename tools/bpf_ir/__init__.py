"""Rewrites LLVM's IR of a program in C, so that clang's back end for BPF takes what it refuses or crashes on."""
