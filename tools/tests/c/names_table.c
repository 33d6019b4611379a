// Names of protocols by an array of texts, found by their hash and written into a report.
#include <linux/bpf.h>
#include <bpf/bpf_helpers.h>

static const char *const names[] = { "icmp", "tcp", "udp", "gre", "esp", "sctp" };
#define COUNT (sizeof(names) / sizeof(names[0]))

char report[64];
__u32 at;
__u8 lengths[COUNT];

static int append(const char *text)
{
    int n = 0;

    while (n < 8 && text[n]) {
        if (at >= sizeof(report) - 1)
            return n;
        report[at++] = text[n++];
    }
    return n;
}

static void append_number(__u32 number)
{
    char digits[10];
    int n = 0;

    do {
        digits[n++] = '0' + number % 10;
        number /= 10;
    } while (number && n < 10);
    while (n > 0 && at < sizeof(report) - 1)
        report[at++] = digits[--n];
}

SEC("xdp")
int report_names(__u64 arg)
{
    for (__u32 i = 0; i < COUNT; i++) {
        lengths[i] = append(names[i]);
        append("=");
        append_number((arg + 1) * i * i * 37);
        append(i + 1 < COUNT ? "," : ".");
    }
    return at;
}
