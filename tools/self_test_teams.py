"""The self-test of two teams on one ledger: the practice ledger worked by hand, 24 before the others, and what holds of random tables and calls."""

from reference import Draw, Refusal, Split, draw, split
from reference_findings import Posted, post, post_all
from reference_teams import TEAM_A, TEAM_B, own_bits, team_draw, team_post, team_post_all, team_split
from seeded import Seeded
from self_test import PRACTICE_LEDGER, random_case, same

# Some of bits 4 to 7 are set beforehand, none of bits 0 to 3.
TABLE = [240, 16, 32, 128]


def teams_worked():
    """A draws at 25 and B at 0, in either order; then each posts by its own bits."""
    marks = list(TABLE)
    same("A draws", team_draw(TEAM_A, PRACTICE_LEDGER, 3, 25, marks), Draw(3))
    same("A's marks", marks, [241, 16, 33, 129])
    same("B draws", team_draw(TEAM_B, PRACTICE_LEDGER, 3, 0, marks), Draw(3))
    same("both teams' marks", marks, [245, 20, 37, 129])
    same("A's own", own_bits(TEAM_A, marks), [1, 0, 1, 1])
    same("B's own", own_bits(TEAM_B, marks), [1, 1, 1, 0])
    turned = list(TABLE)
    team_draw(TEAM_B, PRACTICE_LEDGER, 3, 0, turned)
    same("B's marks", turned, [244, 20, 36, 128])
    team_draw(TEAM_A, PRACTICE_LEDGER, 3, 25, turned)
    same("in the other order", turned, marks)
    errors = [0] * 4
    same("A has no line 1", team_post(TEAM_A, PRACTICE_LEDGER, marks, errors, 1, 5), Refusal(15, 0))
    same("B has", team_post(TEAM_B, PRACTICE_LEDGER, marks, errors, 1, 5), Posted(1))
    same("B stops at line 3", team_post_all(TEAM_B, PRACTICE_LEDGER, marks, errors, [0, 3, 2], [7, 5, 10]), Refusal(15, 1))
    same("what stays posted", errors, [7, 5, 0, 0])
    same("B's split takes its draw out", team_split(TEAM_B, PRACTICE_LEDGER, 3, marks), Split(40, 3, 120, 0, 0))
    same("A's draw stays", marks, [241, 16, 33, 129])
    same("full lines", (team_split(TEAM_B, [500, 120, 0, 80, 300], 4, five := [1, 1, 255, 1, 1]), five), (Split(80, 1, 80, 3, 920), [9, 9, 243, 1, 9]))


def teams_unknown():
    """Every byte but two is 24, before any other refusal, and leaves what is lent."""
    for team in range(256):
        if team in (TEAM_A, TEAM_B):
            continue
        marks, errors = [255, 7], [3]
        same("24 for a split", team_split(team, [], 0, marks), Refusal(24, 0))
        same("24 for a draw", team_draw(team, [0], 0, 9, marks), Refusal(24, 0))
        same("24 for a finding", team_post(team, [9], marks, errors, 9, 99), Refusal(24, 0))
        same("24 for a batch", team_post_all(team, [9], marks, errors, [9], []), Refusal(24, 0))
        same("24 without a line", [team_split(team, [], 1, []), team_draw(team, [], 1, 0, []), team_post_all(team, [], [], [], [], [])], [Refusal(24, 0)] * 3)
        same("24 leaves marks and errors", (marks, errors), ([255, 7], [3]))


def teams_marks():
    """Every byte as a mark: a team reads its two bits, and 1 and 2 of them mean drawn and full; 3 does not."""
    for mark in range(256):
        for team, own in (TEAM_A, mark % 4), (TEAM_B, mark // 4 % 4):
            same(f"mark {mark}", team_post(team, [9], [mark], [0], 0, 1), Posted(1) if own in (1, 2) else Refusal(15, 0))
            written, rest = [mark], mark - own * (1 if team == TEAM_A else 4)
            same("drawn", team_draw(team, [9], 1, 0, written), Draw(1))
            same("the others stay", written, [rest + (1 if team == TEAM_A else 4)])


def random_table(r, lines):
    return [r.below(256) for _ in range(lines)]


def random_calls(r):
    """A ledger, and for each team a split or a draw of it; now and then one that is refused."""
    ledger, _, _ = random_case(r)
    calls = []
    for _ in range(2):
        n, first_point = r.one_of([0, 1, 2, 3, r.between(1, 9)]), r.one_of([0, 0, 1, r.below(60)])
        calls.append((team_split, split, (n,)) if r.chance(30) else (team_draw, draw, (n, first_point)))
    return ledger, calls


def other_bits(team, marks):
    return [mark & ~(3 if team == TEAM_A else 12) for mark in marks]


def teams_apart():
    """A team's call is the plain one on its own bits, whatever the others are; it leaves the others; and two teams' calls may change places."""
    r = Seeded(9)
    for _ in range(600):
        ledger, calls = random_calls(r)
        before = random_table(r, len(ledger))
        ends = []
        for order in (0, 1), (1, 0):
            marks, answers = list(before), {}
            for which in order:
                team, (call, plain, numbers) = (TEAM_A, TEAM_B)[which], calls[which]
                own, others, entering = own_bits(team, marks), other_bits(team, marks), list(marks)
                answers[which] = call(team, ledger, *numbers, marks)
                same("the plain answer", answers[which], plain(ledger, *numbers, own))
                same("the plain marks", own_bits(team, marks), own)
                same("the others stay", other_bits(team, marks), others)
                if isinstance(answers[which], Refusal):
                    same("a refused call changes no bit", marks, entering)
            ends.append((answers, marks))
        same("in either order", *ends)


def teams_posting():
    """A team's batch is the plain one on its own bits: the other team's and bits 4 to 7 do not count, before its draw or after it."""
    r = Seeded(91)
    for _ in range(600):
        ledger, ((call, _, numbers), _) = random_calls(r)
        marks, other = random_table(r, len(ledger)), r.one_of([TEAM_A, TEAM_B])
        team = TEAM_A + TEAM_B - other
        pairs = [(r.below(len(ledger) + 1), r.between(-3, 3)) for _ in range(r.between(0, 5))]
        lines, found = [line for line, _ in pairs], [error for _, error in pairs]
        ways = []
        for _ in range(2):
            errors, one, plain = [0] * len(ledger), [0] * len(ledger), [0] * len(ledger)
            answer = team_post_all(team, ledger, marks, errors, lines, found)
            same("the plain batch", (answer, errors), (post_all(ledger, own_bits(team, marks), plain, lines, found), plain))
            first = team_post(team, ledger, marks, one, *(pairs or [(0, 1)])[0])
            ways.append((answer, errors, first, one))
            call(other, ledger, *numbers, marks)
        same("before the other's call or after it", *ways)


def teams_alone():
    """Where no mark is above 3, team A's calls are the plain ones."""
    r = Seeded(92)
    for _ in range(200):
        ledger, ((call, plain, numbers), _) = random_calls(r)
        marks = [r.below(4) for _ in ledger]
        same("A alone", (call(TEAM_A, ledger, *numbers, own := list(marks)), own), (plain(ledger, *numbers, marks), marks))
        for line in range(len(ledger)):
            same("A posts alone", team_post(TEAM_A, ledger, marks, [0] * len(ledger), line, 1), post(ledger, marks, [0] * len(ledger), line, 1))


def run():
    for test in teams_worked, teams_unknown, teams_marks, teams_apart, teams_posting, teams_alone:
        test()
        print("ok", test.__name__.replace("_", " "))
