/* The header of tools/include, for the machine itself: what its helpers do is in native.h. */
#ifndef NATIVE_BPF_HELPERS_H
#define NATIVE_BPF_HELPERS_H
#define bpf_map_lookup_elem kernel_lookup
#define bpf_loop kernel_loop
#include_next <bpf/bpf_helpers.h>
#undef bpf_map_lookup_elem
#undef bpf_loop
#include <native.h>
#endif
