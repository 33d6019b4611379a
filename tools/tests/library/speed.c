/*
 * What the calls of the library take, in nanoseconds each, the least of 21 rounds: speed
 *
 *     cc -O2 tools/tests/library/speed.c -I FOLDER FOLDER/libbpfspec.a -o speed && ./speed
 */
#define _POSIX_C_SOURCE 199309L
#include "timed.h"

enum { ROUNDS = 21, RUNS = 100000, LOADS = 200, BATCH = 1000 };

static double loads(void)
{
    struct bpfspec_refusal refusal;
    double start = now();

    for (int i = 0; i < LOADS; i++) {
        struct bpfspec_machine machine = {0};
        EXPECT(load(&machine, twenty, &refusal) == BPFSPEC_DONE);
        bpfspec_free(&machine);
    }
    return (now() - start) / LOADS;
}

static double runs(struct bpfspec_machine *machine)
{
    double start = now();
    uint64_t answer;

    for (uint64_t i = 0; i < RUNS; i++)
        EXPECT(bpfspec_run(machine, i, &answer) == BPFSPEC_DONE && answer == i + 1);
    return (now() - start) / RUNS;
}

static double batches(struct bpfspec_machine *machine)
{
    static uint64_t arguments[BATCH], answers[BATCH];
    double start = now();

    for (int i = 0; i < RUNS / BATCH; i++)
        EXPECT(bpfspec_run_each(machine, arguments, BATCH, answers, BATCH) == BPFSPEC_DONE);
    return (now() - start) / RUNS;
}

int main(void)
{
    struct bpfspec_machine machine = {0};
    struct bpfspec_refusal refusal;
    double least[3] = {1e18, 1e18, 1e18};

    EXPECT(load(&machine, ten, &refusal) == BPFSPEC_DONE);
    for (int round = 0; round < ROUNDS; round++) {
        double took[3] = {loads(), runs(&machine), batches(&machine)};
        for (int i = 0; i < 3; i++)
            if (took[i] < least[i])
                least[i] = took[i];
    }
    bpfspec_free(&machine);
    printf("load and free of 20 instructions %.0f ns\nrun of 10 instructions %.1f ns\nthe same by run_each %.1f ns\n",
           least[0], least[1], least[2]);
    return 0;
}
