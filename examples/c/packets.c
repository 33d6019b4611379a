/*
 * Counts the packets of a capture by their protocol of IP: packets FILE, in the form of pcap, of Ethernet.
 *
 *     python3 capture.py capture.pcap && ./packets capture.pcap
 *
 * The host puts the first 64 bytes of each frame into map 0, runs the program with the frame's length, and in the end
 * reads what it counted out of the maps.
 */
#include "bpfspec.h"
#include <inttypes.h>
#include <stdio.h>
#include <string.h>

enum { START = 64, WORDS = START / 8, PROTOCOLS = 256, FRAME = 65535 };
enum { FILE_HEADER = 24, RECORD_HEADER = 16, MAGIC = 4 }; /* bytes */

/*
 * Map 0 has the start of a frame, map 1 the packets of each protocol, map 2 their bytes. It answers the protocol, or
 * 256 where a frame is no packet of IPv4 or IPv6, or is cut in its headers.
 */
static const char program[] =
    "maps 8 256 256\n"
    "    mov64 r6, r1\n"
    "    mov64 r0, 256\n"
    "    jlt64 r6, 34, done      ; the headers of Ethernet and IPv4\n"
    "    ldmapval r1, 0, 0\n"
    "    ldx32 r2, [r1+12]\n"
    "    and64 r2, 65535         ; the type of the frame, its first byte the low one\n"
    "    ldx32 r7, [r1+20]\n"
    "    jeq64 r2, 8, four       ; 0x0800\n"
    "    jne64 r2, 56710, done   ; 0x86dd\n"
    "    jlt64 r6, 54, done      ; the headers of Ethernet and IPv6\n"
    "    ja count\n"
    "four:\n"
    "    rsh64 r7, 24\n"
    "count:\n"
    "    and64 r7, 255           ; byte 20 of IPv6, byte 23 of IPv4\n"
    "    mov64 r0, r7\n"
    "    lsh64 r7, 3             ; 8 bytes an element\n"
    "    ldmapval r1, 1, 0\n"
    "    add64 r1, r7\n"
    "    mov64 r2, 1\n"
    "    atomic64 add [r1+0], r2\n"
    "    ldmapval r1, 2, 0\n"
    "    add64 r1, r7\n"
    "    atomic64 add [r1+0], r6\n"
    "done:\n"
    "    exit\n";

static int wrong(const char *what)
{
    fprintf(stderr, "packets: %s\n", what);
    return 1;
}

/* Runs the program for each frame of a capture behind its header. Gives how many there are, or -1 where one is cut. */
static int count(struct bpfspec_machine *machine, FILE *capture)
{
    static unsigned char frame[FRAME];
    uint32_t header[RECORD_HEADER / 4]; /* seconds, microseconds, bytes that are here, bytes that there were */
    int frames = 0;

    while (fread(header, 1, RECORD_HEADER, capture) == RECORD_HEADER) {
        const uint32_t length = header[2];
        uint64_t words[WORDS] = {0}, protocol;

        if (length > FRAME || fread(frame, 1, length, capture) != length)
            return -1;
        memcpy(words, frame, length < START ? length : START);
        if (bpfspec_set_words(machine, 0, words, WORDS) != BPFSPEC_DONE
            || bpfspec_run(machine, length, &protocol) != BPFSPEC_DONE)
            return -1;
        frames++;
    }
    return frames;
}

/* Prints what was counted, of as many frames. */
static int print(struct bpfspec_machine *machine, int frames)
{
    static uint64_t packets[PROTOCOLS], bytes[PROTOCOLS];
    uint64_t counted = 0;

    if (bpfspec_words(machine, 1, packets, PROTOCOLS) != BPFSPEC_DONE
        || bpfspec_words(machine, 2, bytes, PROTOCOLS) != BPFSPEC_DONE)
        return wrong("there are no such maps");
    for (int protocol = 0; protocol < PROTOCOLS; protocol++) {
        if (packets[protocol] > 0)
            printf("protocol %d: %" PRIu64 " packets, %" PRIu64 " bytes\n", protocol, packets[protocol],
                   bytes[protocol]);
        counted += packets[protocol];
    }
    printf("%" PRIu64 " of %d counted\n", counted, frames);
    return 0;
}

int main(int arguments, char **words)
{
    static const unsigned char magic[MAGIC] = {0xd4, 0xc3, 0xb2, 0xa1}; /* of numbers that begin with the low byte */
    unsigned char header[FILE_HEADER];
    struct bpfspec_machine machine = {0};
    struct bpfspec_refusal refusal;
    FILE *capture = arguments == 2 ? fopen(words[1], "rb") : NULL;
    int status, frames;

    if (capture == NULL)
        return wrong("usage: packets FILE");
    if (fread(header, 1, FILE_HEADER, capture) != FILE_HEADER || memcmp(header, magic, MAGIC) != 0) {
        fclose(capture);
        return wrong("no capture");
    }
    status = bpfspec_load(&machine, program, strlen(program), &refusal);
    if (status == BPFSPEC_DONE) {
        frames = count(&machine, capture);
        status = frames < 0 ? wrong("the capture is cut") : print(&machine, frames);
    } else if (status == BPFSPEC_MEMORY) {
        wrong("there is no memory");
    } else {
        fprintf(stderr, "packets: %c%" PRIu32 " at %" PRIu64 "\n", (int)refusal.kind, refusal.number, refusal.place);
    }
    bpfspec_free(&machine);
    fclose(capture);
    return status != 0;
}
