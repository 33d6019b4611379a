/* What calls give where they are done: many runs, the words of maps, counts, and the loop calls of a run. */
#include "expect.h"

/* Adds up the numbers below its argument in element 1 of map 1, then asks for too many iterations, and answers its argument. */
static const char program[] =
    "maps 2 3\n"
    "    mov64 r6, r1\n"            /* slot 0 */
    "    ldcode r2, callback\n"     /* slots 1 and 2 */
    "    mov64 r3, 0\n"
    "    mov64 r4, 0\n"
    "    call 181\n"                /* slot 5 */
    "    mov64 r1, 9000000\n"
    "    ldcode r2, callback\n"     /* slots 7 and 8 */
    "    mov64 r3, 0\n"
    "    mov64 r4, 0\n"
    "    call 181\n"                /* slot 11 */
    "    mov64 r0, r6\n"
    "    exit\n"
    "callback:\n"
    "    ldmapval r2, 1, 8\n"
    "    atomic64 add [r2+0], r1\n"
    "    mov64 r0, 0\n"
    "    exit\n";

enum { MANY = 1000 };

static void counts(struct bpfspec_machine *machine)
{
    uint32_t number = 0;

    EXPECT(bpfspec_size(machine, 0, &number) == BPFSPEC_DONE && number == 2);
    EXPECT(bpfspec_size(machine, 1, &number) == BPFSPEC_DONE && number == 3);
    EXPECT(bpfspec_count(machine, 0, &number) == BPFSPEC_DONE && number == 12);
    EXPECT(bpfspec_count(machine, 1, &number) == BPFSPEC_DONE && number == 4);
}

static void loops(struct bpfspec_machine *machine)
{
    struct bpfspec_loop loop;
    uint64_t answer;

    EXPECT(bpfspec_report(machine, 0, &loop) == BPFSPEC_RANGE);
    EXPECT(bpfspec_run(machine, 5, &answer) == BPFSPEC_DONE && answer == 5);
    EXPECT(bpfspec_report(machine, 0, &loop) == BPFSPEC_DONE && loop.slot == 5 && loop.answer == 5);
    EXPECT(bpfspec_report(machine, 1, &loop) == BPFSPEC_DONE && loop.slot == 11 && loop.answer == -7);
    EXPECT(bpfspec_report(machine, 2, &loop) == BPFSPEC_RANGE);
}

static void words(struct bpfspec_machine *machine)
{
    static const uint64_t given[] = {UINT64_MAX, 1, 2};
    uint64_t found[4] = {7, 7, 7, 7};

    EXPECT(bpfspec_words(machine, 1, found, 3) == BPFSPEC_DONE);
    EXPECT(found[0] == 0 && found[1] == 10 && found[2] == 0 && found[3] == 7);
    EXPECT(bpfspec_set_words(machine, 1, given, 3) == BPFSPEC_DONE);
    EXPECT(bpfspec_words(machine, 1, found, 3) == BPFSPEC_DONE);
    EXPECT(memcmp(found, given, sizeof given) == 0);
    EXPECT(bpfspec_words(machine, 0, found, 2) == BPFSPEC_DONE);
    EXPECT(found[0] == 0 && found[1] == 0 && found[2] == 2);
    EXPECT(bpfspec_set_words(machine, 0, given, 2) == BPFSPEC_DONE);
    EXPECT(bpfspec_words(machine, 1, found, 3) == BPFSPEC_DONE);
    EXPECT(memcmp(found, given, sizeof given) == 0);
}

static void many(struct bpfspec_machine *machine)
{
    static uint64_t arguments[MANY], answers[MANY];
    struct bpfspec_loop loop;
    uint64_t word, sum = 1;

    for (uint64_t i = 0; i < MANY; i++) {
        arguments[i] = i % 17;
        for (uint64_t number = 0; number < arguments[i]; number++)
            sum += number;
    }
    EXPECT(bpfspec_run_each(machine, arguments, MANY, answers, MANY) == BPFSPEC_DONE);
    EXPECT(memcmp(arguments, answers, sizeof arguments) == 0);
    EXPECT(bpfspec_get(machine, 1, 1, &word) == BPFSPEC_DONE && word == sum);
    EXPECT(bpfspec_report(machine, 0, &loop) == BPFSPEC_DONE && loop.answer == (MANY - 1) % 17);
    EXPECT(bpfspec_run_each(machine, arguments, 0, answers, 0) == BPFSPEC_DONE);
    EXPECT(bpfspec_report(machine, 0, &loop) == BPFSPEC_DONE && loop.answer == (MANY - 1) % 17);
}

int main(void)
{
    struct bpfspec_machine machine = {0};
    struct bpfspec_refusal refusal;

    EXPECT(load(&machine, program, &refusal) == BPFSPEC_DONE);
    counts(&machine);
    loops(&machine);
    words(&machine);
    many(&machine);
    bpfspec_free(&machine);
    puts("each call gives what it should");
    return 0;
}
