// UTF-8 to code points, with each kind of fault counted.
#include <linux/bpf.h>
#include <bpf/bpf_helpers.h>

unsigned char bytes[48] = "na\xc3\xafve \xe2\x82\xac \xf0\x9f\x98\x80 \xc0\x80 \xed\xa0\x80 \xff\xc3(\xe2\x82 end";
__u32 points[48];
struct {
    __u16 good, truncated, overlong, surrogate, wrong;
} counts;

struct reader {
    const unsigned char *at, *end;
    __u32 count;
};

static long read_point(__u32 i, void *ctx)
{
    struct reader *r = ctx;
    __u32 point, least;
    int more;

    if (r->at >= r->end || !*r->at)
        return 1;
    unsigned char first = *r->at++;
    if (first < 0x80) {
        point = first;
        more = 0;
        least = 0;
    } else if ((first & 0xe0) == 0xc0) {
        point = first & 0x1f;
        more = 1;
        least = 0x80;
    } else if ((first & 0xf0) == 0xe0) {
        point = first & 0x0f;
        more = 2;
        least = 0x800;
    } else if ((first & 0xf8) == 0xf0) {
        point = first & 0x07;
        more = 3;
        least = 0x10000;
    } else {
        counts.wrong++;
        return 0;
    }
    for (; more > 0; more--) {
        if (r->at >= r->end || (*r->at & 0xc0) != 0x80) {
            counts.truncated++;
            return 0;
        }
        point = point << 6 | (*r->at++ & 0x3f);
    }
    if (point < least) {
        counts.overlong++;
    } else if (point >= 0xd800 && point < 0xe000) {
        counts.surrogate++;
    } else {
        counts.good++;
        if (r->count < 48)
            points[r->count++] = point;
    }
    return 0;
}

SEC("xdp")
int utf8(__u64 arg)
{
    struct reader r = { bytes + (arg & 3), bytes + sizeof(bytes), 0 };

    bpf_loop(sizeof(bytes), read_point, &r, 0);
    return r.count;
}
