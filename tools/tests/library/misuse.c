/* Misuse and refusals of each kind get their status, and change nothing. */
#include "expect.h"

static const char program[] =
    "maps 2 3\n"
    "ldmapval r2, 1, 16\n"
    "atomic64 add [r2+0], r1\n"
    "ldx64 r0, [r2+0]\n"
    "exit\n";

static void refuses(const char *text, int status, uint32_t kind, uint32_t number, uint64_t place)
{
    struct bpfspec_machine machine = {0};
    struct bpfspec_refusal refusal = {0};

    EXPECT(load(&machine, text, &refusal) == status);
    EXPECT(refusal.kind == kind && refusal.number == number && refusal.place == place);
    EXPECT(!machine.loaded && bpfspec_run(&machine, 1, &refusal.place) == BPFSPEC_EMPTY);
    EXPECT(refusal.place == place);
}

static void empty_handles(void)
{
    struct bpfspec_machine machine = {0};
    struct bpfspec_loop loop = {7, 7};
    uint64_t words[2] = {7, 7};
    uint32_t number = 7;

    EXPECT(bpfspec_run(&machine, 1, words) == BPFSPEC_EMPTY);
    EXPECT(bpfspec_run_each(&machine, words, 1, words + 1, 1) == BPFSPEC_EMPTY);
    EXPECT(bpfspec_run_each(&machine, words, 1, words + 1, 0) == BPFSPEC_EMPTY);
    EXPECT(bpfspec_get(&machine, 0, 0, words) == BPFSPEC_EMPTY);
    EXPECT(bpfspec_set(&machine, 0, 0, 1) == BPFSPEC_EMPTY);
    EXPECT(bpfspec_size(&machine, 0, &number) == BPFSPEC_EMPTY);
    EXPECT(bpfspec_words(&machine, 0, words, 2) == BPFSPEC_EMPTY);
    EXPECT(bpfspec_set_words(&machine, 0, words, 2) == BPFSPEC_EMPTY);
    EXPECT(bpfspec_count(&machine, 0, &number) == BPFSPEC_EMPTY);
    EXPECT(bpfspec_report(&machine, 0, &loop) == BPFSPEC_EMPTY);
    EXPECT(words[0] == 7 && words[1] == 7 && number == 7 && loop.slot == 7 && loop.answer == 7);
    bpfspec_free(&machine);
    bpfspec_free(&machine);
    EXPECT(!machine.loaded);
}

static void elements(struct bpfspec_machine *machine)
{
    uint64_t word = 7;

    EXPECT(bpfspec_get(machine, 0, 2, &word) == BPFSPEC_RANGE);
    EXPECT(bpfspec_get(machine, 2, 0, &word) == BPFSPEC_RANGE);
    EXPECT(bpfspec_get(machine, UINT32_MAX, UINT32_MAX, &word) == BPFSPEC_RANGE);
    EXPECT(bpfspec_set(machine, 1, 3, 9) == BPFSPEC_RANGE);
    EXPECT(word == 7);
    EXPECT(bpfspec_set(machine, 1, 1, 9) == BPFSPEC_DONE);
    EXPECT(bpfspec_get(machine, 1, 1, &word) == BPFSPEC_DONE && word == 9);
    EXPECT(bpfspec_get(machine, 1, 0, &word) == BPFSPEC_DONE && word == 0);
    EXPECT(bpfspec_get(machine, 0, 1, &word) == BPFSPEC_DONE && word == 0);
}

static void ranges(struct bpfspec_machine *machine)
{
    struct bpfspec_loop loop = {7, 7};
    uint64_t words[4] = {7, 7, 7, 7};
    uint32_t number = 7;

    EXPECT(bpfspec_size(machine, 2, &number) == BPFSPEC_RANGE);
    EXPECT(bpfspec_count(machine, 1, &number) == BPFSPEC_RANGE);
    EXPECT(bpfspec_count(machine, UINT32_MAX, &number) == BPFSPEC_RANGE);
    EXPECT(bpfspec_words(machine, 1, words, 2) == BPFSPEC_RANGE);
    EXPECT(bpfspec_words(machine, 1, words, 4) == BPFSPEC_RANGE);
    EXPECT(bpfspec_words(machine, 2, words, 0) == BPFSPEC_RANGE);
    EXPECT(bpfspec_set_words(machine, 1, words, 2) == BPFSPEC_RANGE);
    EXPECT(bpfspec_set_words(machine, 1, words, 4) == BPFSPEC_RANGE);
    EXPECT(bpfspec_set_words(machine, UINT32_MAX, words, 3) == BPFSPEC_RANGE);
    EXPECT(bpfspec_run_each(machine, words, 2, words + 2, 1) == BPFSPEC_RANGE);
    EXPECT(bpfspec_run_each(machine, words, 0, words + 2, 1) == BPFSPEC_RANGE);
    EXPECT(bpfspec_report(machine, 0, &loop) == BPFSPEC_RANGE);
    EXPECT(bpfspec_report(machine, SIZE_MAX, &loop) == BPFSPEC_RANGE);
    EXPECT(words[0] == 7 && words[1] == 7 && words[2] == 7 && words[3] == 7);
    EXPECT(number == 7 && loop.slot == 7 && loop.answer == 7);
    EXPECT(bpfspec_words(machine, 1, words, 3) == BPFSPEC_DONE);
    EXPECT(words[0] == 0 && words[1] == 9 && words[2] == 0 && words[3] == 7);
}

static void runs(struct bpfspec_machine *machine)
{
    struct bpfspec_refusal refusal = {1, 2, 3};
    uint32_t size = 1;
    uint64_t answer;

    EXPECT(bpfspec_run(machine, 5, &answer) == BPFSPEC_DONE && answer == 5);
    EXPECT(bpfspec_run(machine, UINT64_MAX, &answer) == BPFSPEC_DONE && answer == 4);
    EXPECT(load(machine, program, &refusal) == BPFSPEC_HELD);
    EXPECT(load(machine, "nothing", &refusal) == BPFSPEC_HELD);
    EXPECT(bpfspec_load_hex(machine, "", 0, &refusal) == BPFSPEC_HELD);
    EXPECT(bpfspec_load_insns(machine, &size, 1, (const unsigned char *)"", 0, &refusal) == BPFSPEC_HELD);
    EXPECT(refusal.kind == 1 && refusal.number == 2 && refusal.place == 3);
    EXPECT(bpfspec_get(machine, 1, 2, &answer) == BPFSPEC_DONE && answer == 4);
}

static void hex_form(void)
{
    static const char text[] = "maps 1\nbf10000000000000\n9500000000000000\n";
    static const char short_text[] = "maps 1\nbf100000000000\n";
    struct bpfspec_machine machine = {0};
    struct bpfspec_refusal refusal = {0, 0, 0};
    uint64_t answer;

    EXPECT(bpfspec_load_hex(&machine, text, strlen(text), &refusal) == BPFSPEC_DONE);
    EXPECT(refusal.kind == 0 && refusal.number == 0 && refusal.place == 0);
    EXPECT(bpfspec_run(&machine, 77, &answer) == BPFSPEC_DONE && answer == 77);
    bpfspec_free(&machine);
    EXPECT(bpfspec_load_hex(&machine, short_text, strlen(short_text), &refusal) == BPFSPEC_MALFORMED);
    EXPECT(refusal.kind == 'I' && refusal.number == 1 && refusal.place == 0);
}

static void bytes(void)
{
    static const unsigned char insns[] = {0xbf, 0x10, 0, 0, 0, 0, 0, 0, 0x95, 0, 0, 0, 0, 0, 0, 0};
    static const uint32_t sizes[] = {65535, 1, 0};
    struct bpfspec_machine machine = {0};
    struct bpfspec_refusal refusal = {0, 0, 0};
    uint64_t answer;
    uint32_t size;

    EXPECT(bpfspec_load_insns(&machine, sizes, 2, insns, sizeof insns, &refusal) == BPFSPEC_DONE);
    EXPECT(bpfspec_size(&machine, 0, &size) == BPFSPEC_DONE && size == 65535);
    EXPECT(bpfspec_run(&machine, 77, &answer) == BPFSPEC_DONE && answer == 77);
    bpfspec_free(&machine);
    EXPECT(bpfspec_load_insns(&machine, sizes, 2, insns, 15, &refusal) == BPFSPEC_MALFORMED);
    EXPECT(refusal.kind == 'I' && refusal.number == 1 && refusal.place == 1);
    EXPECT(bpfspec_load_insns(&machine, sizes, 2, insns, 0, &refusal) == BPFSPEC_REFUSED);
    EXPECT(refusal.kind == 'V' && refusal.number == 1 && refusal.place == 0);
    EXPECT(bpfspec_load_insns(&machine, sizes, 3, insns, sizeof insns, &refusal) == BPFSPEC_REFUSED);
    EXPECT(refusal.kind == 'V' && refusal.number == 2 && refusal.place == 0);
    EXPECT(bpfspec_load_insns(&machine, sizes, 0, insns, sizeof insns, &refusal) == BPFSPEC_REFUSED);
    EXPECT(refusal.kind == 'V' && refusal.number == 2 && refusal.place == 0);
}

int main(void)
{
    struct bpfspec_machine machine = {0}, moved;
    struct bpfspec_refusal refusal;

    EXPECT(sizeof machine == 16 && sizeof refusal == 16 && sizeof(struct bpfspec_loop) == 16);
    EXPECT(bpfspec_version() == BPFSPEC_VERSION);
    empty_handles();
    refuses("", BPFSPEC_MALFORMED, 'A', 1, 0);
    refuses("maps 1\nmov64 r11, 1\nexit\n", BPFSPEC_MALFORMED, 'A', 3, 2);
    refuses("maps 1\n\xff\n", BPFSPEC_MALFORMED, 'A', 1, 0);
    refuses("maps 1\nexit\n", BPFSPEC_REFUSED, 'V', 12, 0);
    refuses("maps 1\nmov64 r0, 0\nmov64 r10, 0\nexit\n", BPFSPEC_REFUSED, 'V', 11, 1);
    hex_form();
    bytes();
    EXPECT(load(&machine, program, &refusal) == BPFSPEC_DONE);
    elements(&machine);
    ranges(&machine);
    runs(&machine);
    memcpy(&moved, &machine, sizeof moved); /* a move: the old handle isn't used again */
    bpfspec_free(&moved);
    EXPECT(bpfspec_run(&moved, 1, &refusal.place) == BPFSPEC_EMPTY);
    puts("each misuse has its status");
    return 0;
}
