// Expressions by two stacks, with precedence and brackets.
#include <linux/bpf.h>
#include <bpf/bpf_helpers.h>

#define DEPTH 16

const char expressions[4][24] = { "1+2*3", "(1+2)*3", "2*(3+4)*5-6/2", "((8-3)*(7+2))%11" };
long values[4];
char errors[4];

struct stacks {
    long numbers[DEPTH];
    char operators[DEPTH];
    int count, signs;
    char failed;
};

static int precedence(char c)
{
    switch (c) {
    case '+':
    case '-':
        return 1;
    case '*':
    case '/':
    case '%':
        return 2;
    }
    return 0;
}

static void apply(struct stacks *s)
{
    if (s->count < 2 || s->signs < 1 || s->count > DEPTH || s->signs > DEPTH) {
        s->failed = 1;
        return;
    }
    char op = s->operators[--s->signs];
    unsigned long b = s->numbers[--s->count];
    unsigned long a = s->numbers[s->count - 1];
    switch (op) {
    case '+': a += b; break;
    case '-': a -= b; break;
    case '*': a *= b; break;
    case '/': a = b ? a / b : 0; break;
    case '%': a = b ? a % b : 0; break;
    default: s->failed = 1;
    }
    s->numbers[s->count - 1] = a;
}

static long evaluate(__u32 which, void *ctx)
{
    struct stacks s = {};

    if (which >= 4)
        return 1;
    for (int i = 0; i < 24; i++) {
        char c = expressions[which][i];
        if (c >= '0' && c <= '9') {
            if (s.count < DEPTH)
                s.numbers[s.count++] = c - '0';
        } else if (c == '(') {
            if (s.signs < DEPTH)
                s.operators[s.signs++] = c;
        } else if (c == ')') {
            while (s.signs > 0 && s.signs <= DEPTH && s.operators[s.signs - 1] != '(' && !s.failed)
                apply(&s);
            s.signs--;
        } else if (precedence(c)) {
            while (s.signs > 0 && s.signs <= DEPTH && !s.failed &&
                   precedence(s.operators[s.signs - 1]) >= precedence(c))
                apply(&s);
            if (s.signs < DEPTH && s.signs >= 0)
                s.operators[s.signs++] = c;
        } else {
            break;
        }
    }
    while (s.signs > 0 && !s.failed)
        apply(&s);
    values[which] = s.numbers[0];
    errors[which] = s.failed || s.count != 1;
    return 0;
}

SEC("xdp")
int calculate(__u64 arg)
{
    bpf_loop(4, evaluate, NULL, 0);
    return values[arg & 3];
}
