/* The attribute job aid in plain C, on the tables of crates/attributes. */
#include "plain.h"

static const uint8_t levels[3] = {90, 95, 99}, tolerances[5] = {1, 3, 5, 7, 10};
static const uint16_t sizes[15] = {
#include "sizes.inc"
};
static const uint16_t bounds[165] = {
#include "bounds.inc"
};

/* The place of a value among so many, or their number. */
static unsigned place_in(const uint8_t *values, unsigned count, uint8_t value)
{
    unsigned at = 0;
    while (at < count && values[at] != value) at++;
    return at;
}

struct mus_attribute_size_result mus_attribute_size(uint8_t level, uint8_t tolerance)
{
    struct mus_attribute_size_result r = {0, 0, 0};
    unsigned column = place_in(levels, 3, level), row = place_in(tolerances, 5, tolerance);
    if (column == 3) REFUSE(r, 1, 0);
    if (row == 5) REFUSE(r, 25, 0);
    r.items = sizes[3 * row + column];
    return r;
}

struct mus_attribute_bound_result mus_attribute_bound(uint8_t level, uint8_t tolerance, uint64_t exceptions)
{
    struct mus_attribute_bound_result r = {0, 0, 0};
    unsigned column = place_in(levels, 3, level), row = place_in(tolerances, 5, tolerance);
    if (column == 3) REFUSE(r, 1, 0);
    if (row == 5) REFUSE(r, 25, 0);
    if (exceptions > 10) REFUSE(r, 26, 0);
    r.hundredths = bounds[11 * (3 * row + column) + exceptions];
    return r;
}
