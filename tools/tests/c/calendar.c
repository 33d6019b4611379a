// Dates from numbers of days, by divisions; which are palindromes is told by pointers that meet.
#include <linux/bpf.h>
#include <bpf/bpf_helpers.h>
#include <stdbool.h>

#define DAYS 800

char date[11];
char last[11];
__u32 palindromes;
__u32 leap_days;

static int length(const char *s)
{
    int n = 0;

    while (n < 10 && s[n])
        n++;
    return n;
}

/* of the digits alone */
static bool is_palindrome(const char *s)
{
    const char *end = s + length(s) - 1;

    while (s < end) {
        if (*s != *end)
            return false;
        s++;
        end--;
        if (*s == '-')
            s++;
        if (*end == '-')
            end--;
    }
    return true;
}

/* days since 1970-01-01 to a date of the Gregorian calendar */
static __u32 to_date(__u32 days)
{
    __u32 z = days + 719468;
    __u32 era = z / 146097;
    __u32 doe = z - era * 146097;
    __u32 yoe = (doe - doe / 1460 + doe / 36524 - doe / 146096) / 365;
    __u32 doy = doe - (365 * yoe + yoe / 4 - yoe / 100);
    __u32 mp = (5 * doy + 2) / 153;
    __u32 day = doy - (153 * mp + 2) / 5 + 1;
    __u32 month = mp < 10 ? mp + 3 : mp - 9;
    __u32 year = yoe + era * 400 + (month <= 2);
    __u32 y = year;

    for (int i = 3; i >= 0; i--) {
        date[i] = '0' + y % 10;
        y /= 10;
    }
    date[4] = date[7] = '-';
    date[5] = '0' + month / 10;
    date[6] = '0' + month % 10;
    date[8] = '0' + day / 10;
    date[9] = '0' + day % 10;
    return year;
}

static long one_day(__u32 i, void *ctx)
{
    __u32 days = *(__u32 *)ctx + i;

    to_date(days);
    if (date[5] == '0' && date[6] == '2' && date[8] == '2' && date[9] == '9')
        leap_days++;
    if (is_palindrome(date)) {
        palindromes++;
        __builtin_memcpy(last, date, sizeof(last));
    }
    return 0;
}

SEC("xdp")
int calendar(long n)
{
    __u32 first = 14600 + (n & 31);

    bpf_loop(DAYS, one_day, &first, 0);
    return to_date(first);
}
