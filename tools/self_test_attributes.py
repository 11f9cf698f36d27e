"""The self-test of the attribute job aid: document 000's own numbers, each refusal, and that no smaller number would do."""

from reference import Refusal
from reference_attributes import LEVELS, MOST_EXCEPTIONS, TOLERANCES, WHOLE, Bound, Items, attribute_bound, attribute_size, enough, statement, unlikely
from self_test import same

# Document 000, table 1: a row for each tolerance, a column for each level.
TABLE_1 = {1: (230, 299, 459), 3: (76, 99, 152), 5: (45, 59, 90), 7: (32, 42, 64), 10: (22, 29, 44)}


def attributes_printed():
    """Table 1, and the bounds that document 000's examples 21, 22 and 23 use."""
    for tolerance, row in TABLE_1.items():
        same(f"table 1 at {tolerance}", tuple(attribute_size(level, tolerance) for level in LEVELS), tuple(map(Items, row)))
    same("example 23: 45 items, 2 exceptions", attribute_bound(90, 5, 2), Bound(1140))
    same("as text", statement(90, 5, 2), "statement 45 2 11.40\n")
    same("example 21: 29 items, 2 exceptions", attribute_bound(95, 10, 2), Bound(2016))
    same("example 22: 230 items, 2 exceptions", attribute_bound(90, 1, 2), Bound(230))


def attributes_refused():
    """1, 25, 26, in this order."""
    for level in set(range(256)) - set(LEVELS):
        same("1", (attribute_size(level, 2), attribute_bound(level, 2, 11)), (Refusal(1, 0),) * 2)
    for tolerance in set(range(256)) - set(TOLERANCES):
        same("25", (attribute_size(90, tolerance), attribute_bound(90, tolerance, 11)), (Refusal(25, 0),) * 2)
    for exceptions in MOST_EXCEPTIONS + 1, 2**63, 2**64 - 1:
        same("26", attribute_bound(99, 10, exceptions), Refusal(26, 0))


def attributes_least():
    """Each of the 180 numbers has it and the one before it has not; every smaller size is tried, and of the shares every 97th."""
    for level in LEVELS:
        for tolerance in TOLERANCES:
            items = attribute_size(level, tolerance).items
            same("no fewer items", [n for n in range(items + 1) if enough(level, tolerance, n)], [items])
            for exceptions in 0, 1, MOST_EXCEPTIONS:
                bound = attribute_bound(level, tolerance, exceptions).hundredths
                same("no smaller share", [h for h in range(bound % 97, bound + 1, 97) if unlikely(level, items, exceptions, h)], [bound])
            bounds = [attribute_bound(level, tolerance, x).hundredths for x in range(MOST_EXCEPTIONS + 1)]
            for exceptions, bound in enumerate(bounds):
                same("the share before it", unlikely(level, items, exceptions, bound - 1), False)
            same("a bound rises with the exceptions", bounds, sorted(set(bounds)))
            same("without an exception at most the tolerance", bounds[0] <= 100 * tolerance and bounds[-1] < WHOLE, True)


def run():
    for test in attributes_printed, attributes_refused, attributes_least:
        test()
        print("ok", test.__name__.replace("_", " "))
