#include "cases.h"
#include "count.h"
#include "draw.h"
#include "runs.h"

void try_random(uint64_t first, size_t rounds)
{
    static struct row row;
    static uint8_t format[MOST_FORMAT], packed[MOST_ROW], kinds[MOST_KINDS + 8];
    seed(first);
    for (size_t i = 0; i < rounds; i++) {
        random_row(&row);
        size_t length = random_format(format, &row);
        size_t row_length = pack(&row, packed);
        if (i % 4 == 1 || i % 16 == 3)
            length = damage(format, length, sizeof format);
        if (i % 4 == 2 || i % 16 == 3)
            row_length = damage(packed, row_length, sizeof packed);
        if (i % 64 == 7)
            for (size_t k = length = below(40); k > 0; k--)
                format[k - 1] = (uint8_t)draw();
        try_case(format, length, packed, row_length);

        size_t count = below(9);
        for (size_t k = 0; k < count; k++)
            kinds[k] = one_in(20) ? (uint8_t)draw() : (uint8_t)(1 + below(8));
        set_case(format, length, kinds, count);
        struct panel_checked at_end, at_start;
        int good = try_check(format, length, kinds, count, AT_END, &at_end);
        verdict(good, "check against other kinds");
        good = good && try_check(format, length, kinds, count, AT_START, &at_start);
        verdict(good && is_check(at_start, at_end.number, at_end.place, at_end.pieces, at_end.largest), "check against other kinds");
    }
}
