/* The attribute job aid through C: document 000's table 1 and its case, each refusal and their order, and bounds that rise. */
#include <stdint.h>
#include <string.h>

#include "driver.h"
#include "mus.h"

static const uint8_t levels[] = {90, 95, 99}, tolerances[] = {1, 3, 5, 7, 10};

static void table_1(void)
{
    static const uint64_t printed[5][3] = {{230, 299, 459}, {76, 99, 152}, {45, 59, 90}, {32, 42, 64}, {22, 29, 44}};
    for (int row = 0; row < 5; row++)
        for (int column = 0; column < 3; column++) {
            struct mus_attribute_size_result r = mus_attribute_size(levels[column], tolerances[row]);
            SAME(r, "table 1", 0, 0, printed[row][column]);
        }
}

/* A bound is above 0 and at most the whole, and one exception more has a higher one. */
static void rising(uint8_t level, uint8_t tolerance)
{
    uint64_t before = 0;
    for (uint64_t exceptions = 0; exceptions <= 10; exceptions++) {
        struct mus_attribute_bound_result r = mus_attribute_bound(level, tolerance, exceptions);
        expect(r.refusal == 0 && r.hundredths > before && r.hundredths <= 10000, "a bound rises with the exceptions");
        before = r.hundredths;
    }
}

static void refused(void)
{
    struct mus_attribute_size_result s = mus_attribute_size(85, 2);
    SAME(s, "attribute size: 1", 1, 0, 0);
    s = mus_attribute_size(90, 2);
    SAME(s, "attribute size: 25", 25, 0, 0);
    struct mus_attribute_bound_result r = mus_attribute_bound(85, 2, 11);
    SAME(r, "attribute bound: 1 before the others", 1, 0, 0);
    r = mus_attribute_bound(90, 2, 11);
    SAME(r, "attribute bound: 25 before 26", 25, 0, 0);
    r = mus_attribute_bound(90, 5, 11);
    SAME(r, "attribute bound: 26", 26, 0, 0);
    r = mus_attribute_bound(90, 5, (UINT64_C(1) << 32) + 2);
    SAME(r, "attribute bound: 26 where the low bits would pass", 26, 0, 0);
}

void attribute_cases(void)
{
    struct mus_attribute_bound_result r = mus_attribute_bound(90, 5, 2);
    SAME(r, "45 items and 2 exceptions at 90 percent", 0, 0, 1140);
    table_1();
    for (int row = 0; row < 5; row++)
        for (int column = 0; column < 3; column++) rising(levels[column], tolerances[row]);
    refused();
}
