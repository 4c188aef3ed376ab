#include <stdint.h>
#include <string.h>

#include "cases.h"
#include "count.h"
#include "rows.h"
#include "runs.h"

/* One value, or none with kind 0. Text values are given by `text`, floats by their bits. */
struct known {
    const char *format;
    uint8_t kind;
    int64_t value;
    const char *text;
    const char *printed; /* NULL: refused with number and place */
    uint64_t number, place;
};

static const struct known known[] = {
    /* The cases of the scope document, the fourth as a later request has it. */
    { "%d", 4, 5, "", "5", 0, 0 },
    { "%05d", 4, -5, "", "-0005", 0, 0 },
    { "%,d", 4, 1234567, "", "1,234,567", 0, 0 },
    { "%-(8d", 4, -5, "", "(5)     ", 0, 0 },
    { "%(1d", 4, -5, "", "(5)", 0, 0 },
    { "%d", 4, INT64_MIN, "", "-9223372036854775808", 0, 0 },
    { "%#06x", 1, -1, "", "0x00ff", 0, 0 },
    { "%a", 5, 0x3FF0000000000000, "", "0x1.0p0", 0, 0 },
    { "%010a", 5, 0x3FF0000000000000, "", "0x0001.0p0", 0, 0 },
    { "%a", 5, 0x3FF0800000000000, "", "0x1.08p0", 0, 0 },
    { "%.1a", 5, 0x3FFF800000000000, "", "0x1.0p1", 0, 0 },
    { "%.1a", 5, 1, "", "0x1.0p-1074", 0, 0 },
    { "%a", 5, 1, "", "0x0.0000000000001p-1022", 0, 0 },
    { "%.1s", 7, 0, "\303\251", "", 0, 0 },
    { "%3c", 3, 233, "", " \303\251", 0, 0 },
    { "%.2d", 131, 0, "", "nu", 0, 0 },
    { "A%03d%%", 1, 7, "", "A007%", 0, 0 },
    { "%0$d", 3, 0, "", NULL, 10, 0 },
    { "%0$d", 0, 0, "", NULL, 7, 0 },
    { "%", 3, 0, "", NULL, 10, 0 },
    { "%", 0, 0, "", NULL, 7, 0 },
    { "%0-5d", 3, 42, "", "42   ", 0, 0 },
    { "%-05d", 3, 42, "", NULL, 8, 0 },
    { "%2147483648d", 3, 42, "", NULL, 6, 0 },
    { "%tH", 4, 0, "", NULL, 12, 0 },
    { "%tq", 4, 0, "", NULL, 11, 0 },
    { "%h", 7, 0, "x", NULL, 15, 0 },
    { "%c", 3, 0xD7FF, "", "\355\237\277", 0, 0 },
    { "%c", 3, 0xE000, "", "\356\200\200", 0, 0 },
    { "%c", 3, 0x10FFFF, "", "\364\217\277\277", 0, 0 },
    { "%c", 3, 0xD800, "", NULL, 16, 0 },
    { "%c", 3, 0x110000, "", NULL, 16, 0 },
    { "%c", 3, -1, "", NULL, 16, 0 },
    /* More texts. */
    { "", 0, 0, "", "", 0, 0 },
    { "%n", 0, 0, "", "\n", 0, 0 },
    { "a%%b", 0, 0, "", "a%b", 0, 0 },
    { "%0,12d", 4, -1234567, "", "-001,234,567", 0, 0 },
    { "%+d", 1, 0, "", "+0", 0, 0 },
    { "%#o", 2, -1, "", "0177777", 0, 0 },
    { "%#X", 4, INT64_MIN, "", "0X8000000000000000", 0, 0 },
    { "%x|%<o|%<d", 1, 0, "", "0|0|0", 0, 0 },
    { "%.2b", 6, 1, "", "tr", 0, 0 },
    { "%B", 134, 0, "", "FALSE", 0, 0 },
    { "%05d", 129, 0, "", " null", 0, 0 },
    { "%S", 7, 0, "gr\303\274n", "GR\303\274N", 0, 0 },
    { "%-4s|%<4s|%<.2s", 7, 0, "abc", "abc | abc|ab", 0, 0 },
    { "%.2s", 4, -123, "", "-1", 0, 0 },
    { "%A", 5, 0x7FF8000000000000, "", "NAN", 0, 0 },
    { "%+a", 5, 0x7FF0000000000000, "", "+Infinity", 0, 0 },
    { "%.1a", 5, 0x7FEFFFFFFFFFFFFF, "", "0x1.0p1024", 0, 0 },
    { "% 012.3A", 5, 0x4000000000000000, "", " 0X001.000P1", 0, 0 },
    { "%010a", 5, 0, "", "0x0000.0p0", 0, 0 },
    /* Moments: 2026-11-15T07:05:09.025Z, seconds of 1969, the least whole second, the last moment. */
    { "%tH %<tI %<tk %<tl %<tM %<tS %<tL %<tN", 8, 1794726309025000000, "", "07 07 7 7 05 09 025 025000000", 0, 0 },
    { "%tp %<tz %<tZ %<ts %<tQ", 8, 1794726309025000000, "", "am +0000 UTC 1794726309 1794726309025", 0, 0 },
    { "%tB %<tb %<th %<tA %<ta %<tC %<tY %<ty", 8, 1794726309025000000, "", "November Nov Nov Sunday Sun 20 2026 26", 0, 0 },
    { "%tj %<tm %<td %<te", 8, 1794726309025000000, "", "319 11 15 15", 0, 0 },
    { "%tR|%<tT|%<tr|%<tD|%<tF|%<tc", 8, 1794726309025000000, "", "07:05|07:05:09|07:05:09 AM|11/15/26|2026-11-15|Sun Nov 15 07:05:09 UTC 2026", 0, 0 },
    { "%TB %<TA %<Tp %<Tc", 8, 1794726309025000000, "", "NOVEMBER SUNDAY AM SUN NOV 15 07:05:09 UTC 2026", 0, 0 },
    { "%-30tF|%<030.1TF|%<2147483647te", 8, 1794726309025000000, "", "2026-11-15|2026-11-15|15", 0, 0 },
    { "%ts %<tQ %<tc", 8, -1000000000, "", "-1 -1000 Wed Dec 31 23:59:59 UTC 1969", 0, 0 },
    { "%tc", 8, -9223372036000000000, "", "Tue Sep 21 00:12:44 UTC 1677", 0, 0 },
    { "%tc %<tN", 8, INT64_MAX, "", "Fri Apr 11 23:47:16 UTC 2262 854775807", 0, 0 },
    { "x", 8, INT64_MIN, "", "x", 0, 0 },
    /* Every refusal that one value can give. 1, 3, 13 and 17 are in limits.c and cases.c. */
    { "%d \377", 3, 0, "", NULL, 2, 0 },
    { "%\300\200", 3, 0, "", NULL, 2, 0 },
    { "ab%<d", 3, 0, "", NULL, 4, 2 },
    { "ab%<d", 0, 0, "", NULL, 4, 2 },
    { "%n%$d", 3, 0, "", NULL, 5, 2 },
    { "a%2147483648$d", 0, 0, "", NULL, 6, 1 },
    { "a%.2147483648d", 3, 0, "", NULL, 6, 1 },
    { "%2147483648q", 3, 0, "", NULL, 6, 0 },
    { "%2147483647$d", 3, 0, "", NULL, 7, 0 },
    { "%d%d", 3, 0, "", NULL, 7, 2 },
    { "%-+0 d", 3, 0, "", NULL, 8, 0 },
    { "%+- 0d", 3, 0, "", NULL, 9, 0 },
    { "%% +d", 3, 0, "", "% +d", 0, 0 },
    { "x% +d", 3, 0, "", NULL, 9, 1 },
    { "%5%", 3, 0, "", NULL, 10, 0 },
    { "%\303\251", 3, 0, "", NULL, 10, 0 },
    { "%5.", 3, 0, "", NULL, 10, 0 },
    { "%t", 3, 0, "", NULL, 11, 0 },
    { "%T\303\251", 3, 0, "", NULL, 11, 0 },
    { "%x", 5, 0, "", NULL, 12, 0 },
    { "-%d", 7, 0, "x", NULL, 12, 1 },
    { "%d", 1, 128, "", NULL, 14, 0 },
    { "", 133, 0, "", NULL, 14, 0 },
    { "", 129, 1, "", NULL, 14, 0 },
    { "", 6, 2, "", NULL, 14, 0 },
    { "", 9, 0, "", NULL, 14, 0 },
    { "", 136, 0, "", NULL, 14, 0 },
    { "", 7, 0, "\355\240\200", NULL, 14, 0 },
    { "--%a", 131, 0, "", NULL, 15, 2 },
    { "%s", 134, 0, "", NULL, 15, 0 },
    { "%s", 5, 0, "", NULL, 15, 0 },
    { "%s %C", 2, -1, "", NULL, 7, 3 },
    { "%s %<C", 2, -1, "", NULL, 16, 3 },
    { "%d", 8, 0, "", NULL, 12, 0 },
    { "%tH", 5, 0, "", NULL, 12, 0 },
    { "%tq", 8, 0, "", NULL, 11, 0 },
    { "%-0tH", 8, 0, "", NULL, 8, 0 },
    { "%s", 8, -1, "", NULL, 15, 0 },
    { "at %tZ", 8, -1, "", NULL, 18, 3 },
    { "%TH", 8, INT64_MIN, "", NULL, 18, 0 },
    { "%tH %<s", 8, -1, "", NULL, 18, 0 },
    { "%s %<tH", 8, -1, "", NULL, 15, 0 },
};

void try_known(void)
{
    static struct row row;
    static uint8_t packed[MOST_ROW];
    for (size_t i = 0; i < sizeof known / sizeof known[0]; i++) {
        const struct known *k = &known[i];
        row.count = k->kind != 0;
        row.area_length = strlen(k->text);
        memcpy(row.area, k->text, row.area_length);
        row.kind[0] = k->kind;
        row.value[0] = k->kind == 7 ? (uint64_t)row.area_length << 32 : (uint64_t)k->value;
        struct panel_printed m = try_case((const uint8_t *)k->format, strlen(k->format), packed, pack(&row, packed));
        if (k->printed == NULL)
            verdict(is_print(m, k->number, k->place, 0, 0), "known refusal");
        else
            verdict(m.number == 0 && m.length == strlen(k->printed) && memcmp(exact_text, k->printed, m.length) == 0, "known text");
    }
}
