// The request line of HTTP, by a callback with the state in ctx, beside a pointer to what it fills in.
#include <linux/bpf.h>
#include <bpf/bpf_helpers.h>
#include <stdbool.h>

#define MAX_LINE 64

enum method { UNKNOWN, GET, POST, HEAD, DELETE };
enum state { IN_METHOD, IN_PATH, IN_QUERY, IN_VERSION, WANT_LF, DONE, FAILED = -1 };

struct request {
    enum method method;
    char path[32];
    __u8 path_len;
    __u8 params;
    struct { __u8 major : 4, minor : 4; } version;
    bool keep_alive;
};

static const char *lines[] = {
    "GET /index.html HTTP/1.1\r\n",
    "POST /api/v1/items?sort=asc&page=2 HTTP/1.0\r\n",
    "HEAD / HTTP/2.0\r\n",
    "DELETE /x y\r\n",
    "BREW /pot HTTP/1.1\r\n",
    "GET /a/very/long/path/that/does/not/fit/at/all HTTP/1.1\r\n",
};

char line[MAX_LINE];
struct request request;
enum state state;
__u32 consumed;

static enum method method_of(__u32 word)
{
    switch (word) {
    case 'G' << 16 | 'E' << 8 | 'T':
        return GET;
    case 'P' << 24 | 'O' << 16 | 'S' << 8 | 'T':
        return POST;
    case 'H' << 24 | 'E' << 16 | 'A' << 8 | 'D':
        return HEAD;
    case (__u32)'L' << 24 | 'E' << 16 | 'T' << 8 | 'E':
        return DELETE;
    default:
        return UNKNOWN;
    }
}

struct parser {
    struct request *request;
    __u32 word;
    enum state state;
    __u8 version_at;
};

static long feed(__u32 i, void *ctx)
{
    static const char version[] = "HTTP/";
    struct parser *p = ctx;
    struct request *r = p->request;
    char c = line[i];

    consumed++;
    switch (p->state) {
    case IN_METHOD:
        if (c == ' ') {
            r->method = method_of(p->word);
            p->state = r->method == UNKNOWN ? FAILED : IN_PATH;
        } else if (c >= 'A' && c <= 'Z') {
            p->word = p->word << 8 | c;
        } else {
            p->state = FAILED;
        }
        break;
    case IN_PATH:
        if (c == ' ') {
            p->state = IN_VERSION;
        } else if (c == '?') {
            r->params = 1;
            p->state = IN_QUERY;
        } else if (r->path_len >= sizeof(r->path) - 1) {
            p->state = FAILED;
        } else {
            r->path[r->path_len++] = c;
        }
        break;
    case IN_QUERY:
        if (c == ' ')
            p->state = IN_VERSION;
        else if (c == '&')
            r->params++;
        break;
    case IN_VERSION:
        if (c == '\r') {
            p->state = p->version_at == 8 ? WANT_LF : FAILED;
        } else if (p->version_at < 5) {
            if (c != version[p->version_at])
                p->state = FAILED;
        } else if (p->version_at == 5) {
            r->version.major = c - '0';
        } else if (p->version_at == 7) {
            r->version.minor = c - '0';
        }
        p->version_at++;
        break;
    case WANT_LF:
        p->state = c == '\n' ? DONE : FAILED;
        break;
    default:
        break;
    }
    return p->state == DONE || p->state == FAILED;
}

SEC("socket")
int request_line(unsigned long which)
{
    struct parser p = { .request = &request };
    const char *text = lines[which % 6];

    for (int i = 0; i < MAX_LINE - 1; i++) {
        line[i] = text[i];
        if (!text[i])
            break;
    }
    bpf_loop(MAX_LINE, feed, &p, 0);
    state = p.state;
    request.keep_alive = request.version.major == 1 && request.version.minor == 1;
    return state;
}
