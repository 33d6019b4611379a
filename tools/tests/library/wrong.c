/*
 * The library with one call that goes wrong: the one of number WRONG. The linker puts these in place of the library's
 * (--wrap), and each wrong library has to fail a test.
 */
#include "bpfspec.h"

int __real_bpfspec_load(struct bpfspec_machine *machine, const char *text, size_t length,
                        struct bpfspec_refusal *refusal);
int __real_bpfspec_run(struct bpfspec_machine *machine, uint64_t argument, uint64_t *answer);
int __real_bpfspec_run_each(struct bpfspec_machine *machine, const uint64_t *arguments, size_t count,
                            uint64_t *answers, size_t room);
int __real_bpfspec_get(struct bpfspec_machine *machine, uint32_t map, uint32_t index, uint64_t *value);
int __real_bpfspec_set(struct bpfspec_machine *machine, uint32_t map, uint32_t index, uint64_t value);
int __real_bpfspec_size(struct bpfspec_machine *machine, uint32_t map, uint32_t *size);
int __real_bpfspec_words(struct bpfspec_machine *machine, uint32_t map, uint64_t *words, size_t count);
int __real_bpfspec_set_words(struct bpfspec_machine *machine, uint32_t map, const uint64_t *words, size_t count);
int __real_bpfspec_count(struct bpfspec_machine *machine, uint32_t function, uint32_t *count);
int __real_bpfspec_report(struct bpfspec_machine *machine, size_t number, struct bpfspec_loop *loop);
int __real_bpfspec_verify(const char *input, size_t length, char *answer, size_t room, size_t *size);
int __real_bpfspec_verify_hex(const char *input, size_t length, char *answer, size_t room, size_t *size);
int __real_bpfspec_facts(const char *input, size_t length, const struct bpfspec_options *options, char *answer,
                         size_t room, size_t *size);

int __wrap_bpfspec_load(struct bpfspec_machine *machine, const char *text, size_t length,
                        struct bpfspec_refusal *refusal)
{
    int status = __real_bpfspec_load(machine, text, length, refusal);
    if (WRONG == 0 && status == BPFSPEC_REFUSED)
        refusal->place++;
    return WRONG == 1 && status == BPFSPEC_HELD ? BPFSPEC_DONE : status;
}

int __wrap_bpfspec_run(struct bpfspec_machine *machine, uint64_t argument, uint64_t *answer)
{
    if (WRONG == 2)
        *answer = 0; /* also where the handle is empty */
    return __real_bpfspec_run(machine, WRONG == 3 ? argument + 1 : argument, answer);
}

int __wrap_bpfspec_run_each(struct bpfspec_machine *machine, const uint64_t *arguments, size_t count,
                            uint64_t *answers, size_t room)
{
    int status = __real_bpfspec_run_each(machine, arguments, count, answers, room);
    if (WRONG == 4 && status == BPFSPEC_DONE && count > 0)
        status = __real_bpfspec_run(machine, arguments[0], answers); /* one run too many */
    return WRONG == 5 && status == BPFSPEC_RANGE ? BPFSPEC_DONE : status;
}

int __wrap_bpfspec_get(struct bpfspec_machine *machine, uint32_t map, uint32_t index, uint64_t *value)
{
    return __real_bpfspec_get(machine, map, WRONG == 6 ? 0 : index, value);
}

int __wrap_bpfspec_set(struct bpfspec_machine *machine, uint32_t map, uint32_t index, uint64_t value)
{
    return __real_bpfspec_set(machine, WRONG == 7 ? 0 : map, index, value);
}

int __wrap_bpfspec_size(struct bpfspec_machine *machine, uint32_t map, uint32_t *size)
{
    int status = __real_bpfspec_size(machine, map, size);
    if (WRONG == 8 && status == BPFSPEC_DONE)
        *size *= 8;
    return status;
}

int __wrap_bpfspec_words(struct bpfspec_machine *machine, uint32_t map, uint64_t *words, size_t count)
{
    int status = __real_bpfspec_words(machine, map, words, count);
    if (WRONG == 9 && status == BPFSPEC_DONE)
        words[count] = 0;
    return status;
}

int __wrap_bpfspec_set_words(struct bpfspec_machine *machine, uint32_t map, const uint64_t *words, size_t count)
{
    return WRONG == 10 ? BPFSPEC_DONE : __real_bpfspec_set_words(machine, map, words, count);
}

int __wrap_bpfspec_count(struct bpfspec_machine *machine, uint32_t function, uint32_t *count)
{
    return __real_bpfspec_count(machine, WRONG == 11 ? 0 : function, count);
}

int __wrap_bpfspec_report(struct bpfspec_machine *machine, size_t number, struct bpfspec_loop *loop)
{
    return __real_bpfspec_report(machine, WRONG == 12 ? 0 : number, loop);
}

int __wrap_bpfspec_verify(const char *input, size_t length, char *answer, size_t room, size_t *size)
{
    int status = __real_bpfspec_verify(input, length, answer, room, size);
    if (WRONG == 13 && status == BPFSPEC_RANGE && room > 0)
        answer[0] = 'r'; /* a beginning */
    if (WRONG == 14)
        *size += 1; /* as if a NUL ended it */
    return WRONG == 15 && status == BPFSPEC_MALFORMED ? BPFSPEC_REFUSED : status;
}

int __wrap_bpfspec_verify_hex(const char *input, size_t length, char *answer, size_t room, size_t *size)
{
    return (WRONG == 16 ? __real_bpfspec_verify : __real_bpfspec_verify_hex)(input, length, answer, room, size);
}

int __wrap_bpfspec_facts(const char *input, size_t length, const struct bpfspec_options *options, char *answer,
                         size_t room, size_t *size)
{
    static const struct bpfspec_options none = {0};

    if (WRONG == 17)
        return __real_bpfspec_verify(input, length, answer, room, size);
    return __real_bpfspec_facts(input, length, WRONG == 18 ? &none : options, answer, room, size);
}
