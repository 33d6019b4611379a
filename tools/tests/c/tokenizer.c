// Parts a line of a configuration into words, numbers and signs.
#include <linux/bpf.h>
#include <bpf/bpf_helpers.h>

enum kind { END, WORD, NUMBER, TEXT, SIGN, WRONG };

struct token {
    enum kind kind;
    __u16 start, length;
    __u32 number;
};

#define TOKENS 16

char line[96] = "allow tcp from 10.0.0.1 port 0x1f90-9000 comment \"web server\" # first";
struct token tokens[TOKENS];
int keywords[4];

static const char names[4][8] = { "allow", "deny", "tcp", "port" };

static int is_letter(char c)
{
    return (c >= 'a' && c <= 'z') || (c >= 'A' && c <= 'Z') || c == '_';
}

static int is_digit(char c)
{
    return c >= '0' && c <= '9';
}

static int keyword(const char *from, int length)
{
    for (int k = 0; k < 4; k++) {
        int i;
        for (i = 0; i < length && i < 8; i++)
            if (names[k][i] != from[i])
                break;
        if (i == length && i < 8 && names[k][i] == '\0')
            return k;
    }
    return -1;
}

struct scanner {
    int at;
    int count;
};

static long next_token(__u32 index, void *ctx)
{
    struct scanner *s = ctx;
    struct token *t;

    while (s->at < (int)sizeof(line) && line[s->at] == ' ')
        s->at++;
    if (s->count >= TOKENS || s->at >= (int)sizeof(line) || line[s->at] == '\0' || line[s->at] == '#')
        return 1;
    t = &tokens[s->count++];
    t->start = s->at;
    char c = line[s->at];
    if (is_letter(c)) {
        t->kind = WORD;
        while (s->at < (int)sizeof(line) && (is_letter(line[s->at]) || is_digit(line[s->at])))
            s->at++;
        int k = keyword(&line[t->start], s->at - t->start);
        if (k >= 0)
            keywords[k]++;
    } else if (is_digit(c)) {
        __u32 base = 10;
        t->kind = NUMBER;
        if (c == '0' && line[s->at + 1] == 'x') {
            base = 16;
            s->at += 2;
        }
        while (s->at < (int)sizeof(line)) {
            __u32 digit;
            c = line[s->at];
            if (is_digit(c))
                digit = c - '0';
            else if (c >= 'a' && c <= 'f' && base == 16)
                digit = c - 'a' + 10;
            else
                break;
            t->number = t->number * base + digit;
            s->at++;
        }
    } else if (c == '"') {
        t->kind = TEXT;
        s->at++;
        while (s->at < (int)sizeof(line) && line[s->at] != '"')
            s->at++;
        if (s->at >= (int)sizeof(line)) {
            t->kind = WRONG;
            return 1;
        }
        s->at++;
    } else {
        t->kind = SIGN;
        t->number = c;
        s->at++;
    }
    t->length = s->at - t->start;
    return 0;
}

SEC("xdp")
int tokenize(__u64 arg)
{
    struct scanner s = { .at = arg & 7 };

    bpf_loop(64, next_token, &s, 0);
    return s.count * 100 + keywords[2] * 10 + keywords[3];
}
