// A header parser: map 0 has the first 48 bytes of an Ethernet frame as it came, 8 bytes an element. The program answers
// the destination port of an IPv4 packet with UDP or TCP, and 0 for any other.
typedef unsigned char u8;
typedef unsigned int u32;
typedef unsigned long long u64;

struct map;
extern struct map packet;
static void *(*lookup)(struct map *map, const u32 *key) = (void *)1;

__attribute__((section("main"))) long main_(u64 argument) {
    u64 words[6];
#pragma unroll
    for (u32 index = 0; index < 6; index++) {
        u32 key = index;
        u64 *word = lookup(&packet, &key);
        if (!word)
            return 0;
        words[index] = *word;
    }
    const u8 *bytes = (const u8 *)words;
    if (bytes[12] != 0x08 || bytes[13] != 0x00) // EtherType: IPv4
        return 0;
    if (bytes[14] != 0x45) // version 4, a header of 20 bytes
        return 0;
    u8 protocol = bytes[23];
    if (protocol != 6 && protocol != 17)
        return 0;
    return (long)bytes[36] << 8 | bytes[37];
}
