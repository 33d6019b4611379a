/*
 * bpfspec: loads and verifies a BPF program once, and runs it many times.
 *
 * A machine is an accepted program with its maps. A handle of 16 bytes holds it; zeroes are an empty handle, written
 * {} in C++:
 *
 *     struct bpfspec_machine machine = {0};
 *     struct bpfspec_refusal refusal;
 *     const char text[] = "maps 1\nmov64 r0, r1\nadd64 r0, 1\nexit\n";
 *     uint64_t answer;
 *     if (bpfspec_load(&machine, text, strlen(text), &refusal) == BPFSPEC_DONE) {
 *         bpfspec_run(&machine, 41, &answer);   // answer is 42
 *         bpfspec_free(&machine);
 *     }
 *
 * Each call that may fail returns a status, 0 (DONE) or less; its comment lists which. EMPTY and HELD are checked
 * before all else. Results are written at DONE only, and a refusal at MALFORMED and REFUSED only; at any other status
 * these and the machine are unchanged. The calls that print say when they write. Maps, elements, functions and loop
 * calls are numbered from 0. No text has a NUL at its end.
 *
 * The caller's duties, which nothing checks:
 *   - No pointer is NULL, even if a count is 0. It is aligned for its type, all that it points to exists, and nothing
 *     that one call gets overlaps.
 *   - A bool of struct bpfspec_options is 0 or 1.
 *   - A handle is zeroes, or as the last call left it. Its fields are never written. It may be moved but not copied.
 *   - One call at a time uses a handle. Machines share nothing, so each thread may have its own. A machine passes to
 *     another thread through a lock, or by starting or joining a thread.
 *   - No call is made from a signal handler, or after fork in the child of a process with threads.
 *   - malloc, realloc and free belong to one allocator.
 *   - The stack has 256 KB of room (docs/C_LIBRARY.md).
 *   - bpfspec_free frees each machine; else its memory leaks.
 */
#ifndef BPFSPEC_H
#define BPFSPEC_H

#include <stdbool.h>
#include <stddef.h>
#include <stdint.h>

#ifdef __cplusplus
extern "C" {
#endif

#if defined(__GNUC__)
#define BPFSPEC_NONNULL __attribute__((nonnull))
#define BPFSPEC_CHECKED __attribute__((nonnull, warn_unused_result))
#else
#define BPFSPEC_NONNULL
#define BPFSPEC_CHECKED
#endif

/* The number of this interface, as bpfspec_version returns it. */
#define BPFSPEC_VERSION 1

/* Statuses: those below 0 are Linux's error numbers, negated, so that strerror(-status) is a similar error. */
enum bpfspec_status {
    BPFSPEC_DONE = 0,       /* done */
    BPFSPEC_EMPTY = -9,     /* misuse: the handle holds no machine */
    BPFSPEC_MEMORY = -12,   /* out of memory; nothing changed */
    BPFSPEC_REFUSED = -13,  /* the program breaks a rule of the verifier; the refusal says which */
    BPFSPEC_HELD = -16,     /* misuse: the handle already holds a machine, and keeps it */
    BPFSPEC_MALFORMED = -22,/* the text or the instructions are malformed; the refusal says why */
    BPFSPEC_RANGE = -34     /* no such element, map, function or loop call; a count differs; or too little room */
};

/* A handle, empty or with a machine: 16 bytes that only the library writes. */
struct bpfspec_machine {
    bool loaded;
    unsigned char *at;
};

/* Why a program isn't loaded, printed as V19 at slot 7 or A2 at line 3 (docs/REFUSALS.md). */
struct bpfspec_refusal {
    uint32_t kind;   /* 'A': a text; 'I': the bytes of instructions; 'V': the verifier */
    uint32_t number; /* the number after the letter */
    uint64_t place;  /* 'A': the line, from 1, or 0 for the whole text; 'I' and 'V': the slot, from 0 */
};

/* A loop call of the last run. */
struct bpfspec_loop {
    uint64_t slot;  /* the slot of the call */
    int64_t answer; /* how many iterations ran, or -22 or -7 if the call was refused, as bpf_loop returns them */
};

/* Options of bpfspec_facts. Zeroes are `./bpfspec facts` without options. Each bool is 0 or 1. */
struct bpfspec_options {
    uint64_t argument; /* --arg: main's argument */
    bool hex;          /* --hex: the unit is in hex form */
    bool lrpd;         /* --test lrpd: loops are tested by lrpd, not by flow */
    bool states;       /* --states: the abstract values of an accepted program too */
    bool all;          /* --all: up to 64 elements of each loop that conflicts, not only the least */
    bool grid;         /* --grid: what iterations of the first loop that conflicts access */
};

/* Returns the number of the library's interface, BPFSPEC_VERSION. */
uint32_t bpfspec_version(void);

/*
 * Loads an assembler text of `length` bytes, at most 1,048,576, into an empty handle, and verifies the program. Its
 * maps are all zero.
 * Returns DONE, HELD, MALFORMED, REFUSED or MEMORY; the handle changes at DONE only.
 */
BPFSPEC_CHECKED int bpfspec_load(struct bpfspec_machine *machine, const char *text, size_t length,
                                 struct bpfspec_refusal *refusal);

/* Loads a text in hex form, as bpfspec_load does an assembler text. */
BPFSPEC_CHECKED int bpfspec_load_hex(struct bpfspec_machine *machine, const char *text, size_t length,
                                     struct bpfspec_refusal *refusal);

/*
 * Loads a program as bpfspec_load does, from the `sizes` of `maps` maps, in elements of 8 bytes, and `length` bytes of
 * instructions, 8 for each slot, as RFC 9669 encodes them. A 64-bit load names a map by its index (kinds 5 and 6).
 */
BPFSPEC_CHECKED int bpfspec_load_insns(struct bpfspec_machine *machine, const uint32_t *sizes, size_t maps,
                                       const unsigned char *insns, size_t length, struct bpfspec_refusal *refusal);

/* Frees the machine, if there is one, and leaves the handle empty. */
BPFSPEC_NONNULL void bpfspec_free(struct bpfspec_machine *machine);

/*
 * Runs the program with `argument` in R1, its loops in order, and writes its return value to `answer`. The maps change
 * in place and stay for the next run. A run terminates: bpfspec_count bounds the instructions of each function, and a
 * loop has at most 8,388,608 iterations.
 * Returns DONE or EMPTY.
 */
BPFSPEC_NONNULL int bpfspec_run(struct bpfspec_machine *machine, uint64_t argument, uint64_t *answer);

/*
 * Runs the program once per argument, in order; maps carry over. Writes `count` return values to `answers`.
 * Returns DONE, EMPTY, or RANGE if `room` (capacity of `answers`, in elements) isn't `count`; then nothing runs.
 */
BPFSPEC_NONNULL int bpfspec_run_each(struct bpfspec_machine *machine, const uint64_t *arguments, size_t count,
                                     uint64_t *answers, size_t room);

/* Writes the value of element `index` of a map to `value`. Returns DONE, EMPTY, or RANGE if there is none. */
BPFSPEC_NONNULL int bpfspec_get(struct bpfspec_machine *machine, uint32_t map, uint32_t index, uint64_t *value);

/* Sets element `index` of a map to `value`. Returns DONE, EMPTY, or RANGE if there is none. */
BPFSPEC_NONNULL int bpfspec_set(struct bpfspec_machine *machine, uint32_t map, uint32_t index, uint64_t value);

/* Writes a map's number of elements to `size`. Returns DONE, EMPTY, or RANGE if there is no such map. */
BPFSPEC_NONNULL int bpfspec_size(struct bpfspec_machine *machine, uint32_t map, uint32_t *size);

/*
 * Writes the values of all elements of a map to `words`, which has room for `count`.
 * Returns DONE, EMPTY, or RANGE if there is no such map or `count` isn't its size.
 */
BPFSPEC_NONNULL int bpfspec_words(struct bpfspec_machine *machine, uint32_t map, uint64_t *words, size_t count);

/*
 * Sets all elements of a map to the `count` values of `words`.
 * Returns DONE, EMPTY, or RANGE if there is no such map or `count` isn't its size.
 */
BPFSPEC_NONNULL int bpfspec_set_words(struct bpfspec_machine *machine, uint32_t map, const uint64_t *words,
                                      size_t count);

/*
 * Writes a function's worst-case instruction count to `count`. Function 0 is main, in whose count a loop call is one
 * instruction; the callbacks follow, in the order of their slots.
 * Returns DONE, EMPTY, or RANGE if there is no such function.
 */
BPFSPEC_NONNULL int bpfspec_count(struct bpfspec_machine *machine, uint32_t function, uint32_t *count);

/*
 * Writes loop call `number` of the last run to `loop`; refused calls count too.
 * Returns DONE, EMPTY, or RANGE if that run made fewer calls or there was no run.
 */
BPFSPEC_NONNULL int bpfspec_report(struct bpfspec_machine *machine, size_t number, struct bpfspec_loop *loop);

/*
 * Writes what `./bpfspec verify` prints of an input of `length` bytes: an assembler text, and sections after lines %%,
 * which aren't read. Needs no machine.
 * Returns DONE (the program is accepted), REFUSED or MALFORMED, with the text in the first `*size` bytes of `answer`;
 * RANGE if it doesn't fit the `room` bytes of `answer`, with only `*size` written, as the room needed; or MEMORY, with
 * nothing written.
 */
BPFSPEC_NONNULL int bpfspec_verify(const char *input, size_t length, char *answer, size_t room, size_t *size);

/* Writes what `./bpfspec verify --hex` prints, as bpfspec_verify does. Malformed instructions ('I') are REFUSED. */
BPFSPEC_NONNULL int bpfspec_verify_hex(const char *input, size_t length, char *answer, size_t room, size_t *size);

/*
 * Writes what `./bpfspec facts` prints, as bpfspec_verify does: why the program is refused and what the verifier knows
 * of each instruction, or the loops of an accepted program and why they conflict; a JSON object a line. For the loops
 * it runs the program, on one thread, on the maps of the input or on zeroes.
 */
BPFSPEC_NONNULL int bpfspec_facts(const char *input, size_t length, const struct bpfspec_options *options,
                                  char *answer, size_t room, size_t *size);

#ifdef __cplusplus
}
#endif

#endif
