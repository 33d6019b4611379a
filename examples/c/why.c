/* Prints why a program is refused, as ./bpfspec facts does: a JSON object a line. */
#include "bpfspec.h"
#include <stdio.h>
#include <stdlib.h>
#include <string.h>

/* What `facts` prints of an input, in memory that the caller frees; NULL where there is none. */
static char *facts_of(const char *input, size_t length, size_t *size)
{
    static const struct bpfspec_options options = {0};
    char *answer = NULL;
    size_t room = 1024;
    int status = BPFSPEC_RANGE;

    while (status == BPFSPEC_RANGE) {
        char *more = realloc(answer, room);

        if (!more)
            break;
        answer = more;
        status = bpfspec_facts(input, length, &options, answer, room, size);
        room = *size;
    }
    if (status != BPFSPEC_RANGE && status != BPFSPEC_MEMORY)
        return answer;
    free(answer);
    return NULL;
}

int main(void)
{
    static const char input[] =
        "maps 8\n"
        "and64 r1, 15\n"
        "lsh64 r1, 3\n"
        "ldmapval r2, 0, 0\n"
        "add64 r2, r1\n"
        "ldx64 r0, [r2+0]\n"
        "exit\n";
    size_t size = 0;
    char *answer = facts_of(input, strlen(input), &size);

    if (!answer)
        return 1;
    fwrite(answer, 1, size, stdout);
    free(answer);
    return 0;
}
