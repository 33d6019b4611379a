// RC4: the permutation of 256 bytes by a key, and a text by its stream.
#include <linux/bpf.h>
#include <bpf/bpf_helpers.h>

struct rc4 {
    __u8 s[256];
    __u8 i, j;
};

struct rc4 cipher;
const char key[] = "Key";
__u8 text[16] = "Plaintext";

static long schedule(__u32 n, void *ctx)
{
    __u8 t = cipher.s[n & 255];
    cipher.j += t + key[n % 3];
    cipher.s[n & 255] = cipher.s[cipher.j];
    cipher.s[cipher.j] = t;
    return 0;
}

static __u8 next(struct rc4 *c)
{
    __u8 t;
    c->i++;
    t = c->s[c->i];
    c->j += t;
    c->s[c->i] = c->s[c->j];
    c->s[c->j] = t;
    return c->s[(__u8)(c->s[c->i] + t)];
}

static long encrypt(__u32 n, void *ctx)
{
    if (n < sizeof(text))
        text[n] ^= next(&cipher);
    return 0;
}

SEC("xdp")
int rc4(void *ctx)
{
    for (int n = 0; n < 256; n++)
        cipher.s[n] = n;
    bpf_loop(256, schedule, NULL, 0);
    cipher.i = cipher.j = 0;
    bpf_loop(9, encrypt, NULL, 0);
    return (__u32)text[0] << 24 | text[1] << 16 | text[2] << 8 | text[3];
}
char LICENSE[] SEC("license") = "GPL";
