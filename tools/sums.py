"""The sums that a page works out, as 12 + 3 = 15 or 7 × 40 / 30 = 9.33: each is computed again, rounded down or to the nearest."""

import re
from fractions import Fraction

NUMBER = r"\d[\d,]*(?:\.\d+)?"
SUM = re.compile(rf"((?:{NUMBER} [-+×/] )+{NUMBER}) = (-?{NUMBER})")


def value(number):
    return Fraction(number.replace(",", "").rstrip("."))


def computed(expression):
    """Products and quotients from the left, before sums and differences."""
    first, *rest = expression.split(" ")
    terms = [value(first)]
    for sign, number in zip(rest[::2], map(value, rest[1::2])):
        if sign in "+-":
            terms.append(number if sign == "+" else -number)
        else:
            terms[-1] = terms[-1] * number if sign == "×" else terms[-1] / number
    return sum(terms)


def check_sums(page, fail):
    """How many sums the page has; at the first that is wrong, fail is told."""
    sums = SUM.findall(page)
    for expression, told in sums:
        found, unit = computed(expression), Fraction(1, 10 ** len(told.partition(".")[2]))
        if not -unit / 2 <= found - value(told) < unit:
            fail(f"{expression} is {float(found)}, and not {told}")
    return len(sums)
