/* The stored cases of the blackboard method: the first method gives the same answer, and leaves the same marks. */
#include <string.h>

#include "driver.h"
#include "feed.h"
#include "mus.h"

static uint8_t plainly[1000001];

void board_draw_case(void)
{
    byte_room();
    memcpy(plainly, bytes, room_length);
    struct mus_draw_result r = mus_board_draw(ledger, ledger_length, first, second, bytes, room_length);
    struct mus_draw_result s = mus_draw(ledger, ledger_length, first, second, plainly, room_length);
    expect(memcmp(&r, &s, sizeof r) == 0 && memcmp(bytes, plainly, room_length) == 0, "both methods draw the same lines");
    say(" boarddraw");
    say_answer(r.refusal, r.place, &r.drawn, 1);
    say(" lent");
    say_list(ledger, ledger_length);
    say_bytes(bytes, room_length);
}

void board_project_case(void)
{
    struct mus_project_result r = mus_board_project(ledger, ledger_length, first, second, errors, errors_length);
    struct mus_project_result s = mus_project(ledger, ledger_length, first, second, errors, errors_length);
    expect(memcmp(&r, &s, sizeof r) == 0, "both methods project the same sums");
    say(" boardproject");
    say_answer(r.refusal, r.place, &r.full, 6);
    say(" lent");
    say_list(ledger, ledger_length);
    say_errors(errors, errors_length);
}
