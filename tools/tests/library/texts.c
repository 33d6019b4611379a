/* What the calls that print write: all of it and its size where there is room, and the size alone where there isn't. */
#include "expect.h"

enum { ROOM = 4096 };

typedef int print_call(const char *input, size_t length, char *answer, size_t room, size_t *size);

static int facts(const char *input, size_t length, char *answer, size_t room, size_t *size)
{
    static const struct bpfspec_options options = {0};

    return bpfspec_facts(input, length, &options, answer, room, size);
}

static bool is_filled(const char *bytes, size_t count)
{
    for (size_t i = 0; i < count; i++)
        if (bytes[i] != '?')
            return false;
    return true;
}

/* A call prints this of an input, with its status, also in just enough room; in less it says how much it wants. */
static void prints(print_call *call, const char *input, size_t length, int status, const char *text)
{
    size_t wanted = strlen(text), size = 0;
    char answer[ROOM];

    for (size_t room = wanted; room < ROOM; room += ROOM - wanted - 1) {
        memset(answer, '?', sizeof answer);
        EXPECT(call(input, length, answer, room, &size) == status);
        EXPECT(size == wanted && memcmp(answer, text, wanted) == 0);
        EXPECT(is_filled(answer + wanted, ROOM - wanted));
    }
    for (size_t room = 0; room < wanted; room++) {
        size = 0;
        memset(answer, '?', sizeof answer);
        EXPECT(call(input, length, answer, room, &size) == BPFSPEC_RANGE);
        EXPECT(size == wanted && is_filled(answer, ROOM));
    }
}

/* As many iterations as main's argument says: each moves an element. */
#define MOVES(read, write)         \
    "maps 8\n"                     \
    "ldcode r2, callback\n"        \
    "mov64 r3, 0\n"                \
    "mov64 r4, 0\n"                \
    "call 181\n"                   \
    "exit\n"                       \
    "callback:\n"                  \
    "and64 r1, 3\n"                \
    "lsh64 r1, 3\n"                \
    "ldmapval r2, 0, 0\n"          \
    "add64 r2, r1\n"               \
    "ldx64 r3, [r2+" read "]\n"    \
    "stx64 [r2+" write "], r3\n"   \
    "mov64 r0, 0\n"                \
    "exit\n"

static const char forth[] = MOVES("0", "8"), back[] = MOVES("8", "0");

/* The beginnings of records. */
#define CONFLICT "\"verdict\":\"conflict\""
#define PAIR "{\"record\":\"pair\",\"loop\":0,\"map\":0,\"element\":"
#define VALUE "{\"record\":\"value\","
#define CELL "{\"record\":\"cell\","

/* Whether the facts with these options have these words, and their status. */
static bool says(const char *input, const struct bpfspec_options *options, int status, const char *words)
{
    static char answer[4 * ROOM];
    size_t size;

    EXPECT(bpfspec_facts(input, strlen(input), options, answer, sizeof answer - 1, &size) == status);
    answer[size] = 0;
    return strstr(answer, words) != NULL;
}

static void options(void)
{
    const struct bpfspec_options none = {0}, argument = {.argument = 4}, all = {.argument = 4, .all = true};
    const struct bpfspec_options lrpd = {.argument = 4, .lrpd = true}, states = {.states = true}, hex = {.hex = true};
    const struct bpfspec_options grid = {.argument = 4, .grid = true};

    EXPECT(!says(forth, &none, BPFSPEC_DONE, CONFLICT) && !says(forth, &none, BPFSPEC_DONE, VALUE));
    EXPECT(says(forth, &argument, BPFSPEC_DONE, "\"answer\":4,\"verdict\":\"conflict\",\"conflicts\":3,"));
    EXPECT(says(forth, &argument, BPFSPEC_DONE, PAIR "1,") && !says(forth, &argument, BPFSPEC_DONE, PAIR "2,"));
    EXPECT(says(forth, &all, BPFSPEC_DONE, PAIR "1,") && says(forth, &all, BPFSPEC_DONE, PAIR "2,"));
    EXPECT(!says(back, &argument, BPFSPEC_DONE, CONFLICT) && says(back, &lrpd, BPFSPEC_DONE, CONFLICT));
    EXPECT(says(forth, &states, BPFSPEC_DONE, VALUE));
    EXPECT(says(forth, &hex, BPFSPEC_MALFORMED, "\"code\":\"A1\",\"name\":\"form\",\"line\":2,"));
    EXPECT(says(forth, &grid, BPFSPEC_DONE, CELL) && !says(forth, &argument, BPFSPEC_DONE, CELL));
}

#define HEADER                                                                        \
    "{\"record\":\"header\",\"version\":1,\"form\":\"text\",\"argument\":\"0\",\"test\":\"flow\"," \
    "\"states\":false,\"all\":false,\"grid\":false}\n"

#define PRINTS(call, input, status, text) prints(call, input, sizeof(input) - 1, status, text)

int main(void)
{
    PRINTS(bpfspec_verify, "maps 1\nmov64 r0, 7\nexit\n", BPFSPEC_DONE, "accepted\nfunction 0 at 0 count 2\n");
    PRINTS(bpfspec_verify, "maps 1\nmov64 r0, 7\nexit\n%%\nnothing that is read\n", BPFSPEC_DONE,
           "accepted\nfunction 0 at 0 count 2\n");
    PRINTS(bpfspec_verify, "maps 1\nexit\n", BPFSPEC_REFUSED, "refused V12 at slot 0\n");
    PRINTS(bpfspec_verify, "maps 1\nmov64 r11, 1\n", BPFSPEC_MALFORMED, "refused A3 at unit line 2\n");
    PRINTS(bpfspec_verify, "", BPFSPEC_MALFORMED, "refused A1 at unit line 0\n");
    PRINTS(bpfspec_verify, "\xff", BPFSPEC_MALFORMED, "refused A1 at unit line 0\n");
    PRINTS(bpfspec_verify_hex, "maps 1\nbf10000000000000\n9500000000000000\n", BPFSPEC_DONE,
           "accepted\nfunction 0 at 0 count 2\n");
    PRINTS(bpfspec_verify_hex, "maps 1\nbf10000000\n", BPFSPEC_REFUSED, "refused I1 at slot 0\n");
    PRINTS(bpfspec_verify_hex, "maps 1\n9500000000000000\n", BPFSPEC_REFUSED, "refused V12 at slot 0\n");
    PRINTS(bpfspec_verify_hex, "exit\n", BPFSPEC_MALFORMED, "refused A1 at unit line 1\n");
    PRINTS(facts, "maps 1\nmov64 r0, 7\nexit\n", BPFSPEC_DONE,
           HEADER "{\"record\":\"function\",\"function\":0,\"slot\":0,\"count\":2}\n"
           "{\"record\":\"map\",\"map\":0,\"elements\":1}\n"
           "{\"record\":\"insn\",\"slot\":0,\"insn\":\"mov64 r0, 7\",\"reached\":true,\"ahead\":1,\"aside\":null}\n"
           "{\"record\":\"insn\",\"slot\":1,\"insn\":\"exit\",\"reached\":true,\"ahead\":null,\"aside\":null}\n"
           "{\"record\":\"end\",\"status\":0}\n");
    PRINTS(facts, "\xff", BPFSPEC_MALFORMED,
           HEADER "{\"record\":\"refusal\",\"section\":\"unit\",\"code\":\"A1\",\"name\":\"form\",\"line\":0,"
           "\"slot\":null,\"event\":null}\n{\"record\":\"end\",\"status\":2}\n");
    options();
    puts("each text is as it should be");
    return 0;
}
