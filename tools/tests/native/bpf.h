/* examples/from_c/bpf.h, for the machine itself. */
#ifndef NATIVE_BPF_H
#define NATIVE_BPF_H
#include <linux/types.h>
#include <bpf/bpf_helpers.h>
enum { BPF_MAP_TYPE_ARRAY = 2 };
#endif
