// Ranges by pointers: from both ends, differences, comparisons, and rows of a matrix.
#include <linux/bpf.h>
#include <bpf/bpf_helpers.h>

static int data[20] = { 5, -3, 8, 0, 12, 7, 7, -9, 4, 1, 6, 2, 15, -8, 3, 9, 11, 10, -1, 14 };
char grid[6][10];
long distance;
short positions[4];

static void reverse(int *from, int *to)
{
    while (from < --to) {
        int t = *from;
        *from++ = *to;
        *to = t;
    }
}

static int *find(int *from, int *to, int value)
{
    for (; from != to; from++)
        if (*from == value)
            return from;
    return to;
}

static int fill_row(char (*row)[10], char first)
{
    char *p = *row, *end = *row + sizeof(*row);
    int n = 0;

    while (p < end) {
        *p++ = first++;
        n++;
    }
    return n;
}

SEC("xdp")
int ranges(__u64 arg)
{
    int *end = data + 20;
    unsigned total = 0;

    reverse(data + 2, end - 3);
    int *seven = find(data, end, 7);
    int *next = find(seven + 1, end, 7);
    distance = next - seven;
    positions[0] = seven - data;
    positions[1] = end - next;
    positions[2] = find(data, end, (int)arg) == end;
    for (int y = 0; y < 6; y++)
        total += fill_row(&grid[y], 'a' + y * 3 + (arg & 3));
    for (int *p = end - 1; p >= data; p -= 2)
        total += *p;
    for (char *c = &grid[5][9]; c >= &grid[0][0]; c--)
        total = total * 3 + *c;
    positions[3] = total;
    return total;
}
