/* Two copies of the shared library in one process have nothing in common: copies FIRST.so SECOND.so */
#define _GNU_SOURCE
#include "bpfspec.h"
#include <dlfcn.h>
#include <stdio.h>
#include <string.h>

typedef int load_call(struct bpfspec_machine *, const char *, size_t, struct bpfspec_refusal *);
typedef int run_call(struct bpfspec_machine *, uint64_t, uint64_t *);
typedef void free_call(struct bpfspec_machine *);

static const char program[] =
    "maps 1\nldmapval r2, 0, 0\natomic64 add [r2+0], r1\nldx64 r0, [r2+0]\nexit\n";

int main(int count, char **words)
{
    struct bpfspec_machine machines[2] = {{0}, {0}};
    struct bpfspec_refusal refusal;
    uint64_t answers[2] = {0, 0};

    for (int i = 0; i < 2 && i + 1 < count; i++) {
        void *library = dlopen(words[i + 1], RTLD_NOW | RTLD_LOCAL);
        load_call *load = library ? (load_call *)dlsym(library, "bpfspec_load") : NULL;
        run_call *run = library ? (run_call *)dlsym(library, "bpfspec_run") : NULL;
        free_call *end = library ? (free_call *)dlsym(library, "bpfspec_free") : NULL;
        if (!load || !run || !end || load(&machines[i], program, strlen(program), &refusal) != BPFSPEC_DONE)
            return 1;
        for (uint64_t number = 0; number <= 10; number++)
            if (run(&machines[i], number + (uint64_t)i, &answers[i]) != BPFSPEC_DONE)
                return 1;
        end(&machines[i]);
    }
    printf("%d %d\n", (int)answers[0], (int)answers[1]);
    return !(answers[0] == 55 && answers[1] == 66);
}
