/*
 * Four threads, a machine each: they share a sum of the numbers below 4,000,000 that are divisible by 3 or 5, and the
 * host adds up what each has in its map. The first machine is loaded here and handed over.
 */
#include "bpfspec.h"
#include <inttypes.h>
#include <pthread.h>
#include <stdio.h>
#include <string.h>

enum { THREADS = 4, NUMBERS = 4000000 };

/* Adds its argument to element 0 where it is divisible by 3 or by 5. */
static const char program[] =
    "maps 1\n"
    "    mov64 r2, r1\n"
    "    mod64 r2, 3\n"
    "    jeq64 r2, 0, add\n"
    "    mov64 r2, r1\n"
    "    mod64 r2, 5\n"
    "    jeq64 r2, 0, add\n"
    "    ja end\n"
    "add:\n"
    "    ldmapval r3, 0, 0\n"
    "    atomic64 add [r3+0], r1\n"
    "end:\n"
    "    mov64 r0, 0\n"
    "    exit\n";

struct share {
    pthread_t thread;
    struct bpfspec_machine machine;
    uint64_t from, to, sum;
    int status;
};

static void *run_share(void *argument)
{
    struct share *share = argument;
    struct bpfspec_refusal refusal;

    if (!share->machine.loaded)
        share->status = bpfspec_load(&share->machine, program, strlen(program), &refusal);
    for (uint64_t number = share->from; share->status == BPFSPEC_DONE && number < share->to; number++) {
        uint64_t answer;
        share->status = bpfspec_run(&share->machine, number, &answer);
    }
    if (share->status == BPFSPEC_DONE)
        share->status = bpfspec_get(&share->machine, 0, 0, &share->sum);
    bpfspec_free(&share->machine);
    return NULL;
}

int main(void)
{
    static struct share shares[THREADS];
    struct bpfspec_refusal refusal;
    uint64_t sum = 0, expected = 0;

    /* The first thread gets a machine that is loaded here. */
    if (bpfspec_load(&shares[0].machine, program, strlen(program), &refusal) != BPFSPEC_DONE)
        return 1;
    for (unsigned i = 0; i < THREADS; i++) {
        shares[i].from = NUMBERS / THREADS * i;
        shares[i].to = NUMBERS / THREADS * (i + 1);
        if (pthread_create(&shares[i].thread, NULL, run_share, &shares[i]) != 0)
            return 1;
    }
    for (int i = 0; i < THREADS; i++) {
        pthread_join(shares[i].thread, NULL);
        if (shares[i].status != BPFSPEC_DONE)
            return 1;
        sum += shares[i].sum;
    }
    for (uint64_t number = 0; number < NUMBERS; number++)
        if (number % 3 == 0 || number % 5 == 0)
            expected += number;
    printf("%" PRIu64 "\n", sum);
    return sum != expected;
}
