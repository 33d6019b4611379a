/*
 * Each allocation of a load is refused in turn: it says so, the handle stays empty, and nothing is lost. So is each of
 * a call that prints: it says so and writes nothing. A run asks for nothing. The linker puts the functions below in
 * place of malloc, realloc and free (--wrap).
 */
#include "bpfspec.h"
#include <stdio.h>
#include <string.h>

static long asked, refused_at = -1, held;

void *__real_malloc(size_t size);
void *__real_realloc(void *old, size_t size);
void __real_free(void *old);

static bool is_refused(void)
{
    return asked++ == refused_at;
}

void *__wrap_malloc(size_t size)
{
    void *made = is_refused() ? NULL : __real_malloc(size);
    held += made != NULL;
    return made;
}

void *__wrap_realloc(void *old, size_t size)
{
    void *made = is_refused() ? NULL : __real_realloc(old, size);
    held += made != NULL && old == NULL;
    return made;
}

void __wrap_free(void *old)
{
    held -= old != NULL;
    __real_free(old);
}

static const char program[] =
    "maps 4\n"
    "mov64 r6, r1\n"
    "mov64 r1, 100\n"
    "ldcode r2, callback\n"
    "mov64 r3, 0\n"
    "mov64 r4, 0\n"
    "call 181\n"
    "add64 r0, r6\n"
    "exit\n"
    "callback:\n"
    "ldmapval r2, 0, 0\n"
    "atomic64 add [r2+0], r1\n"
    "mov64 r0, 0\n"
    "exit\n";

static int fails(const char *what, long at)
{
    fprintf(stderr, "memory: %s, allocation %ld\n", what, at);
    return 1;
}

/* A load in each of its forms. */
static int load(int form, struct bpfspec_machine *machine, struct bpfspec_refusal *refusal)
{
    static const unsigned char insns[] = {0xbf, 0x10, 0, 0, 0, 0, 0, 0, 0x95, 0, 0, 0, 0, 0, 0, 0};
    static const char hex[] = "maps 1\nbf10000000000000\n9500000000000000\n";
    static const uint32_t sizes[] = {3, 4};

    if (form == 0)
        return bpfspec_load(machine, program, strlen(program), refusal);
    if (form == 1)
        return bpfspec_load_hex(machine, hex, strlen(hex), refusal);
    return bpfspec_load_insns(machine, sizes, 2, insns, sizeof insns, refusal);
}

static int refuses_each(int form, struct bpfspec_machine *machine)
{
    for (long at = 0;; at++) {
        struct bpfspec_refusal refusal = {1, 2, 3};
        int status;

        asked = 0;
        refused_at = at;
        status = load(form, machine, &refusal);
        refused_at = -1;
        if (refusal.kind != 1 || refusal.number != 2 || refusal.place != 3)
            return fails("a refusal is written", at);
        if (status == BPFSPEC_DONE)
            return at < 5 ? fails("a load asked for little", at) : 0;
        if (status != BPFSPEC_MEMORY)
            return fails("another status", at);
        if (machine->loaded || held != 0)
            return fails("something is left", at);
    }
}

static int runs(struct bpfspec_machine *machine)
{
    static uint64_t numbers[1000], answers[1000];
    uint64_t words[4];

    asked = 0;
    for (uint64_t number = 0; number < 1000; number++) {
        numbers[number] = number;
        if (bpfspec_run(machine, number, answers) != BPFSPEC_DONE || answers[0] != number + 100)
            return fails("a run went wrong", (long)number);
    }
    if (bpfspec_run_each(machine, numbers, 1000, answers, 1000) != BPFSPEC_DONE || answers[999] != 1099)
        return fails("runs went wrong", 0);
    if (bpfspec_words(machine, 0, words, 4) != BPFSPEC_DONE || words[0] != 2000 * 4950)
        return fails("the words are wrong", 0);
    if (bpfspec_set_words(machine, 0, words, 4) != BPFSPEC_DONE)
        return fails("the words aren't set", 0);
    return asked != 0 ? fails("a run asked for memory", asked) : 0;
}

enum { ROOM = 16384 };

/* Each of the calls that print. */
static int print(int call, char *answer, size_t *size)
{
    static const struct bpfspec_options options = {.argument = 4};
    static const char hex[] = "maps 1\nbf10000000000000\n9500000000000000\n";

    if (call == 0)
        return bpfspec_verify(program, strlen(program), answer, ROOM, size);
    if (call == 1)
        return bpfspec_verify_hex(hex, strlen(hex), answer, ROOM, size);
    return bpfspec_facts(program, strlen(program), &options, answer, ROOM, size);
}

static int prints(int call)
{
    static char whole[ROOM], answer[ROOM], untouched[ROOM];
    size_t wanted, size;

    memset(untouched, '?', ROOM);
    if (print(call, whole, &wanted) != BPFSPEC_DONE)
        return fails("a text isn't printed", call);
    for (long at = 0;; at++) {
        int status;

        memset(answer, '?', ROOM);
        size = 7;
        asked = 0;
        refused_at = at;
        status = print(call, answer, &size);
        refused_at = -1;
        if (held != 0)
            return fails("something is left", at);
        if (status == BPFSPEC_MEMORY && size == 7 && memcmp(answer, untouched, ROOM) == 0)
            continue;
        if (status != BPFSPEC_DONE || size != wanted || memcmp(answer, whole, size) != 0)
            return fails("another text", at);
        if (memcmp(answer + size, untouched, ROOM - size) != 0)
            return fails("more than the text", at);
        if (asked <= at)
            return at < 5 ? fails("a text asked for little", at) : 0;
    }
}

int main(void)
{
    for (int call = 0; call < 3; call++)
        if (prints(call))
            return 1;
    for (int form = 0; form < 3; form++) {
        struct bpfspec_machine machine = {0};

        if (refuses_each(form, &machine) || (form == 0 && runs(&machine)))
            return 1;
        bpfspec_free(&machine);
        if (held != 0)
            return fails("a machine isn't freed", held);
    }
    puts("each allocation refused in turn");
    return 0;
}
