/* Loads a program and runs it once: prints 42. */
#include "bpfspec.h"
#include <inttypes.h>
#include <stdio.h>
#include <string.h>

int main(void)
{
    static const char text[] = "maps 1\nmov64 r0, r1\nadd64 r0, 1\nexit\n";
    struct bpfspec_machine machine = {0};
    struct bpfspec_refusal refusal;
    uint64_t answer = 0;

    if (bpfspec_load(&machine, text, strlen(text), &refusal) != BPFSPEC_DONE)
        return 1;
    bpfspec_run(&machine, 41, &answer);
    printf("%" PRIu64 "\n", answer);
    bpfspec_free(&machine);
    return 0;
}
