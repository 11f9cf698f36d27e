#!/usr/bin/env python3
"""Kanthiwop's reference: every step of monetary unit sampling, by definition.

It is written from the rules alone, in exact whole numbers, to be read beside them. It shares nothing with the
proved program, so that the two can be held against each other. The operations by strata stand in tools/reference_strata.py, the
program for them in tools/reference_programmes.py, the tally of a season in tools/reference_season.py, the attribute job aid in tools/reference_attributes.py,
findings by the batch in tools/reference_findings.py, two teams on one ledger in tools/reference_teams.py,
the blackboard method in tools/reference_board.py, the salvage of a working file in tools/reference_salvage.py, totals beside the ledger in tools/reference_totals.py.

An operation takes its inputs and its lent buffers (lists of numbers, or bytearrays), and returns its answer or a
Refusal (number, place). It stores into a lent buffer only after its last check: a refused call leaves every buffer, but that a batch of findings
leaves the pairs before the refused one posted.

    python3 tools/reference.py check       the practice sheet, and the sums over all starts of random ledgers
    python3 tools/reference.py desk        the desk program: a working file in, or the byte 0x42 and one, its text out
    python3 tools/reference.py factors     the nine rows of sixty-four factors
"""

import functools
import sys
from typing import NamedTuple

# Sizes.
MOST_LINES = 1_000_000
MOST_VALUE = 10**13
MOST_TOTAL = 10**15
MOST_INTERVAL = 10**15
MOST_ERRORS = 63

# Sizes of the working file.
MOST_FILE_WORDS = 64
MOST_FILE_LINES = 2_048
MOST_SUM = 2**64 - 1
MOST_OVERSTATED = 2**63 - 1
MOST_UNDERSTATED = 2**63

# The expansion factor of each level, in hundredths; its keys are the nine levels.
EF = {99: 190, 95: 160, 90: 150, 85: 140, 80: 130, 75: 125, 70: 120, 60: 110, 50: 100}

# What a line ends as.
NOT_DRAWN, DRAWN, FULL = 0, 1, 2


class Refusal(NamedTuple):
    number: int
    place: int


class Size(NamedTuple):
    draws: int


class Split(NamedTuple):
    interval: int
    draws_left: int
    sampled_total: int
    full_lines: int
    full_total: int


class Start(NamedTuple):
    start: int
    words_read: int


class Draw(NamedTuple):
    drawn_lines: int


class Projection(NamedTuple):
    """The sums of overstatements, m, the sums of understatements as sizes, and the net with its sign."""

    full_sum: int
    sampled_sum: int
    m: int
    understated_full: int
    understated_sampled: int
    net: int


class Judgement(NamedTuple):
    full_sum: int
    sampled_sum: int
    m: int
    understated_full: int
    understated_sampled: int
    net: int
    precision: int
    upper_limit: int
    verdict: str


class Content(NamedTuple):
    level: int
    te: int
    ae: int
    words: int
    lines: int


class Length(NamedTuple):
    length: int


class Refused(Exception):
    """Raised at the check that fails; an operation turns it into its answer."""

    def __init__(self, number, place):
        super().__init__(number, place)
        self.refusal = Refusal(number, place)


def operation(step):
    """An operation returns its refusal."""

    @functools.wraps(step)
    def answer(*inputs):
        try:
            return step(*inputs)
        except Refused as refused:
            return refused.refusal

    return answer


def divide_up(amount, by):
    """amount / by, rounded up."""
    return -(-amount // by)


# ---- Factors ----


@functools.lru_cache(maxsize=64)
def series(hundredths):
    """The terms (hundredths/100)^i / i! for i from 0 to 256, all multiplied by 100^256 × 256!."""
    term = 100**256
    for i in range(1, 257):
        term *= i
    terms = [term]
    for i in range(1, 257):
        term = term * hundredths // (100 * i)  # leaves no remainder: 100^(256-i) × 256!/i! is whole
        terms.append(term)
    return terms


def chance_is_small(level, k, hundredths):
    """Whether the Poisson chance of k or fewer events with mean hundredths/100 is at most (100 - level) percent."""
    terms = series(hundredths)
    k_or_fewer = sum(terms[: k + 1])
    least_power = sum(terms[:256])
    most_power = least_power + 2 * terms[256]
    by_least = 100 * k_or_fewer <= (100 - level) * least_power
    by_most = 100 * k_or_fewer <= (100 - level) * most_power
    assert by_least == by_most, "the two bounds of the exponential disagree"
    return by_least


@functools.lru_cache(maxsize=None)
def RF(level, k):
    """The least whole F whose chance is small. The chance falls as F grows, so halving finds it."""
    no, yes = 0, 12_800
    assert not chance_is_small(level, k, no) and chance_is_small(level, k, yes)
    while yes - no > 1:
        middle = (no + yes) // 2
        if chance_is_small(level, k, middle):
            yes = middle
        else:
            no = middle
    return yes


# ---- Checks that several steps make ----


def check_level(level):
    if level not in EF:
        raise Refused(1, 0)


def lines_total(lines):
    """The total of lines, judged one by one."""
    total = 0
    for line, value in enumerate(lines):
        if value > MOST_VALUE:
            raise Refused(3, line)
        total += value
        if total > MOST_TOTAL:
            raise Refused(4, line)
    return total


def ledger_total(ledger, *beside, agree=True):
    """The total of a legal ledger; beside are the marks, errors or amounts lent with it, and whatever else is lent agrees in length."""
    if len(ledger) > MOST_LINES:
        raise Refused(2, 0)
    if not agree or any(len(entries) != len(ledger) for entries in beside):
        raise Refused(13, 0)
    total = lines_total(ledger)
    if total == 0:
        raise Refused(5, 0)
    return total


def check_te(te, total):
    if te == 0 or te > total:
        raise Refused(6, 0)


def check_start(start, interval, stratum=0):
    if start >= interval and not (interval == 0 and start == 0):
        raise Refused(11, stratum)


# ---- Step 1: size ----


def draws_needed(level, total, te, ae):
    check_te(te, total)
    if ae > total:
        raise Refused(6, 0)
    if 100 * te <= ae * EF[level]:
        raise Refused(7, 0)
    return divide_up(total * RF(level, 0), 100 * te - ae * EF[level])


@operation
def size(level, total, te, ae):
    check_level(level)
    if total > MOST_TOTAL:
        raise Refused(4, 0)
    if total == 0:
        raise Refused(5, 0)
    return Size(draws_needed(level, total, te, ae))


# ---- Step 2: split ----


class Rounds(NamedTuple):
    """What the split ends with: the interval of each round, the sampled lines, the full lines, draws left."""

    intervals: list
    sampled: list
    full: list
    draws_left: int


def split_rounds(ledger, n):
    """Rounds on the list of the remaining lines, until no line is above the interval."""
    remaining, full, draws_left, intervals = list(range(len(ledger))), [], n, []
    while True:
        remaining_total = sum(ledger[line] for line in remaining)
        interval = remaining_total // draws_left if remaining_total > 0 else 0
        intervals.append(interval)
        above = [line for line in remaining if ledger[line] > interval]
        if not above:
            return Rounds(intervals, remaining, sorted(full), draws_left)
        full += above
        draws_left -= len(above)
        remaining = [line for line in remaining if ledger[line] <= interval]


def finished_split(ledger, n):
    """The split of a legal ledger: its figures and its rounds."""
    if n == 0:
        raise Refused(8, 0)
    rounds = split_rounds(ledger, n)
    interval = rounds.intervals[-1]
    sampled_total = sum(ledger[line] for line in rounds.sampled)
    full_total = sum(ledger[line] for line in rounds.full)
    return Split(interval, rounds.draws_left, sampled_total, len(rounds.full), full_total), rounds


@operation
def split(ledger, n, marks):
    ledger_total(ledger, marks)
    figures, rounds = finished_split(ledger, n)
    for line in rounds.sampled:
        marks[line] = NOT_DRAWN
    for line in rounds.full:
        marks[line] = FULL
    return figures


@operation
def split_intervals(ledger, n):
    """The interval of every round, for the reader: the split's answer holds the last."""
    ledger_total(ledger)
    return finished_split(ledger, n)[1].intervals


# ---- Step 3: start ----


@operation
def start(interval, words):
    if interval > MOST_INTERVAL:
        raise Refused(10, 0)
    if interval <= 1:
        return Start(0, 0)
    bits = (interval - 1).bit_length()
    for words_read, word in enumerate(words, start=1):
        low_bits = word % 2**bits
        if low_bits < interval:
            return Start(low_bits, words_read)
    raise Refused(12, len(words))


# ---- Step 4: draw ----


def drawn_lines(ledger, sampled, interval, first_point):
    """The sampled lines that cover one of the cents first_point, first_point + interval, and so on."""
    if interval == 0:
        return []
    drawn, line_begins, point = [], 0, first_point
    for line in sampled:
        line_ends = line_begins + ledger[line]
        if line_begins <= point < line_ends:
            drawn.append(line)
        while point < line_ends:
            point += interval
        line_begins = line_ends
    return drawn


def states_after(ledger, rounds, first_point):
    """What each line ends as, after a split and from a start that fits."""
    states = [NOT_DRAWN] * len(ledger)
    for line in rounds.full:
        states[line] = FULL
    for line in drawn_lines(ledger, rounds.sampled, rounds.intervals[-1], first_point):
        states[line] = DRAWN
    return states


def states_of_lines(ledger, n, first_point):
    """The interval, and what each line of a legal ledger ends as."""
    figures, rounds = finished_split(ledger, n)
    check_start(first_point, figures.interval)
    return figures.interval, states_after(ledger, rounds, first_point)


def write_marks(marks, states):
    marks[:] = states if isinstance(marks, list) else bytes(states)


@operation
def draw(ledger, n, first_point, marks):
    ledger_total(ledger, marks)
    _, states = states_of_lines(ledger, n, first_point)
    write_marks(marks, states)
    return Draw(states.count(DRAWN))


# ---- Step 5: projection ----


def projected(state, value, error, interval):
    """The projected amount of a line, rounded up once in size; below 0 where the error is, an understatement."""
    if state == FULL:
        return error
    if state == DRAWN:
        size = divide_up(abs(error) * interval, value)
        return size if error >= 0 else -size
    return 0


def check_errors(ledger, errors, states):
    """An error lies from -v to v, and any other than 0 on a line that was examined."""
    for line, (value, error, state) in enumerate(zip(ledger, errors, states)):
        if not -value <= error <= value:
            raise Refused(14, line)
        if error != 0 and state == NOT_DRAWN:
            raise Refused(15, line)


def amounts_of_lines(ledger, n, first_point, errors):
    """The interval, each line's state and its projected amount."""
    interval, states = states_of_lines(ledger, n, first_point)
    check_errors(ledger, errors, states)
    amounts = [projected(*line, interval) for line in zip(states, ledger, errors)]
    return interval, states, amounts


def amounts_in(state, states, amounts):
    """The amounts of the lines in a state, apart by kind: overstatements, and the sizes of understatements."""
    found = [amount for of_line, amount in zip(states, amounts) if of_line == state]
    return [amount for amount in found if amount > 0], [-amount for amount in found if amount < 0]


def projection_of(states, amounts):
    """Both sums of each kind; m, the drawn lines with an overstatement; and the net of the four sums."""
    full, understated_full = amounts_in(FULL, states, amounts)
    sampled, understated_sampled = amounts_in(DRAWN, states, amounts)
    net = sum(full) + sum(sampled) - sum(understated_full) - sum(understated_sampled)
    return Projection(sum(full), sum(sampled), len(sampled), sum(understated_full), sum(understated_sampled), net)


@operation
def project(ledger, n, first_point, errors):
    ledger_total(ledger, errors)
    _, states, amounts = amounts_of_lines(ledger, n, first_point, errors)
    return projection_of(states, amounts)


@operation
def project_lines(ledger, n, first_point, errors, amounts):
    """The projection, and what each line projects, written into amounts."""
    ledger_total(ledger, errors, amounts)
    _, states, projected_amounts = amounts_of_lines(ledger, n, first_point, errors)
    amounts[:] = projected_amounts
    return projection_of(states, projected_amounts)


# ---- Steps 6 and 7: upper limit and verdict ----


def precision_of(level, interval, amounts):
    """The steps times the amounts sorted downwards, with sign, rounded up once at the end."""
    hundredths = interval * RF(level, 0)
    for i, amount in enumerate(sorted(amounts, reverse=True), start=1):
        step = RF(level, i) - RF(level, i - 1) - 100
        hundredths += step * amount
    return divide_up(hundredths, 100)


def verdict_of(projected_error, upper_limit, te):
    if projected_error > te:
        return "above"
    if upper_limit < te:
        return "below"
    return "inconclusive"


def judgement_of(level, interval, states, amounts, te):
    """Only overstatements enter m, the precision, the limit and the verdict."""
    projection = projection_of(states, amounts)
    if projection.m > MOST_ERRORS:
        raise Refused(16, 0)
    overstated, _ = amounts_in(DRAWN, states, amounts)
    precision = precision_of(level, interval, overstated)
    projected_error = projection.full_sum + projection.sampled_sum
    upper_limit = projected_error + precision
    return Judgement(*projection, precision, upper_limit, verdict_of(projected_error, upper_limit, te))


@operation
def judge(level, ledger, n, first_point, errors, te):
    check_level(level)
    total = ledger_total(ledger, errors)
    check_te(te, total)
    interval, states, amounts = amounts_of_lines(ledger, n, first_point, errors)
    return judgement_of(level, interval, states, amounts, te)


# ---- The working file ----

BODY = {ord("P"): 17, ord("W"): 8, ord("L"): 8, ord("E"): 12, ord("U"): 12, ord("Z"): 12}
# E and U share one place in the order.
PLACE = {ord("P"): 0, ord("W"): 1, ord("L"): 2, ord("E"): 3, ord("U"): 3, ord("Z"): 4}


def number_at(file, offset, width):
    return int.from_bytes(file[offset : offset + width], "little")


class Reading:
    """What the records so far hold, and the rule of each kind: each rule answers whether the record keeps it."""

    def __init__(self):
        self.plan, self.words, self.values, self.errors = None, [], [], {}
        self.values_sum, self.last_kind, self.last_error_line = 0, None, -1

    def comes_in_order(self, kind):
        if self.last_kind is None:
            return kind == ord("P")
        return kind != ord("P") and PLACE[kind] >= PLACE[self.last_kind]

    def take_P(self, body):
        self.plan = body[0], number_at(body, 1, 8), number_at(body, 9, 8)
        return True

    def take_W(self, body):
        self.words.append(number_at(body, 0, 8))
        return len(self.words) <= MOST_FILE_WORDS

    def take_L(self, body):
        value = number_at(body, 0, 8)
        self.values.append(value)
        self.values_sum += value
        return len(self.values) <= MOST_FILE_LINES and self.values_sum <= MOST_SUM

    def take_error(self, body, sign, most):
        """E and U share one strictly rising sequence of lines; each holds a size above 0."""
        line, size = number_at(body, 0, 4), number_at(body, 4, 8)
        rises = line > self.last_error_line
        self.errors[line], self.last_error_line = sign * size, line
        return rises and line < len(self.values) and 0 < size <= most

    def take_E(self, body):
        return self.take_error(body, 1, MOST_OVERSTATED)

    def take_U(self, body):
        return self.take_error(body, -1, MOST_UNDERSTATED)

    def take_Z(self, body):
        return (number_at(body, 0, 4), number_at(body, 4, 8)) == (len(self.values), self.values_sum)

    def take(self, kind, body):
        """Whether this record keeps its rules."""
        if kind not in BODY or not self.comes_in_order(kind) or len(body) < BODY[kind]:
            return False
        self.last_kind = kind
        return getattr(self, "take_" + chr(kind))(body)


def decode(file):
    """The content of a legal file, record by record."""
    reading, offset = Reading(), 0
    while reading.last_kind != ord("Z"):
        if offset >= len(file):
            raise Refused(17, len(file))
        kind = file[offset]
        body = file[offset + 1 : offset + 1 + BODY.get(kind, 0)]
        if not reading.take(kind, body):
            raise Refused(17, offset)
        offset += 1 + len(body)
    if offset < len(file):
        raise Refused(17, offset)
    errors = [reading.errors.get(line, 0) for line in range(len(reading.values))]
    return reading.plan, reading.words, reading.values, errors


@operation
def read(file, words, values, errors):
    for room, needed in (words, MOST_FILE_WORDS), (values, MOST_FILE_LINES), (errors, MOST_FILE_LINES):
        if len(room) < needed:
            raise Refused(18, needed)
    (level, te, ae), read_words, read_values, read_errors = decode(file)
    words[: len(read_words)] = read_words
    values[: len(read_values)] = read_values
    errors[: len(read_errors)] = read_errors
    return Content(level, te, ae, len(read_words), len(read_values))


def record(kind, *fields):
    """A kind byte and its body; a field is a number and its width in bytes."""
    return kind + b"".join(number.to_bytes(width, "little") for number, width in fields)


def error_record(line, error):
    """E for an overstatement, U with the size of an understatement, and nothing for no error."""
    if error == 0:
        return b""
    return record(b"E" if error > 0 else b"U", (line, 4), (abs(error), 8))


def encode(level, te, ae, words, values, errors):
    """The one file of a content."""
    file = record(b"P", (level, 1), (te, 8), (ae, 8))
    file += b"".join(record(b"W", (word, 8)) for word in words)
    file += b"".join(record(b"L", (value, 8)) for value in values)
    file += b"".join(error_record(line, error) for line, error in enumerate(errors))
    return file + record(b"Z", (len(values), 4), (sum(values), 8))


@operation
def write(level, te, ae, words, values, errors, out):
    if len(errors) != len(values):
        raise Refused(13, 0)
    if len(words) > MOST_FILE_WORDS or len(values) > MOST_FILE_LINES or sum(values) > MOST_SUM:
        raise Refused(19, 0)
    file = encode(level, te, ae, words, values, errors)
    if len(file) > len(out):
        raise Refused(18, len(file))
    out[: len(file)] = file
    return Length(len(file))


# ---- The desk program ----


def accepted(answer):
    """The answer of a step that the desk goes on from."""
    if isinstance(answer, Refusal):
        raise Refused(*answer)
    return answer


def text_line(word, *figures):
    return " ".join([word, *map(str, figures)]) + "\n"


def desk_lines(file):
    """The lines of the desk's text, each step's refusals in order, 12 in the place of 11."""
    (level, te, ae), words, ledger, errors = decode(file)
    check_level(level)
    total = ledger_total(ledger, errors)
    n = draws_needed(level, total, te, ae)
    figures, _ = finished_split(ledger, n)
    first_point, words_read = accepted(start(figures.interval, words))
    interval, states, amounts = amounts_of_lines(ledger, n, first_point, errors)
    *projection, precision, upper_limit, verdict = judgement_of(level, interval, states, amounts, te)
    yield text_line("plan", level, total, te, ae, n)
    yield text_line("split", *figures)
    yield text_line("start", first_point, words_read)
    for line, state in enumerate(states):
        if state != NOT_DRAWN:
            yield text_line("full" if state == FULL else "drawn", line, ledger[line], errors[line], amounts[line])
    yield text_line("project", *projection)
    yield text_line("judge", precision, upper_limit, verdict)


def file_given(given):
    """The working file in the bytes of standard input: what follows one byte 0x42, with which the blackboard method is asked for, or all of them."""
    return given[1:] if given[:1] == b"\x42" else given


def desk(given):
    """The whole output for the bytes of standard input. Both methods give the same lines (tools/reference_board.py), and places count no byte before the file."""
    try:
        return "".join(desk_lines(file_given(given))).encode()
    except Refused as refused:
        return text_line("refused", *refused.refusal).encode()


def main(arguments):
    if arguments == ["check"]:
        import self_test  # they stand on this file
        import self_test_attributes
        import self_test_board
        import self_test_findings
        import self_test_programmes
        import self_test_salvage
        import self_test_season
        import self_test_strata
        import self_test_teams
        import self_test_totals

        self_test.run()
        self_test_strata.run()
        self_test_programmes.run()
        self_test_season.run()
        self_test_attributes.run()
        self_test_findings.run()
        self_test_teams.run()
        self_test_board.run()
        self_test_salvage.run()
        self_test_totals.run()
    elif arguments == ["desk"]:
        sys.stdout.buffer.write(desk(sys.stdin.buffer.read()))
    elif arguments == ["factors"]:
        for level in EF:
            print(level, *(RF(level, k) for k in range(64)))
    else:
        sys.exit(__doc__)


if __name__ == "__main__":
    main(sys.argv[1:])
