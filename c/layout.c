/* Holds the header against the library: calls whose outcome is known by hand, each field of it read where the header says that it stands. */
#include "fjurkesprek.h"

#include <stdio.h>
#include <string.h>

static int faults;

static void expect(int holds, const char *what, int line)
{
    if (!holds) {
        printf("layout.c:%d: not so: %s\n", line, what);
        faults++;
    }
}
#define EXPECT(what) expect((what), #what, __LINE__)

#define SAME(place, ...) EXPECT(memcmp((place), (uint16_t[sizeof(place) / 2]){__VA_ARGS__}, sizeof(place)) == 0)

/* Rows (2,7,5), (1,9,9), (3,20,11): allowances 3, 4, 2. */
static const uint8_t record[] = {1, 0, 19, 3, 0, 2, 0, 7, 0, 5, 0, 1, 0, 9, 0, 9, 0, 3, 0, 20, 0, 11};

static struct fjurke_table table_of(const uint8_t *bytes, size_t length)
{
    struct fjurke_read_answer answer = fjurke_read(bytes, length);
    EXPECT(answer.number == FJURKE_TAKEN);
    EXPECT(answer.row == 0);
    return answer.table;
}

static void read_and_write(void)
{
    struct fjurke_table table = table_of(record, sizeof record);
    EXPECT(table.n == 3);
    SAME(table.c, 2, 1, 3);
    SAME(table.t, 7, 9, 20);
    SAME(table.d, 5, 9, 11);

    uint8_t buffer[sizeof record + 1];
    memset(buffer, 0xa5, sizeof buffer);
    struct fjurke_write_answer answer = fjurke_write(table, buffer, sizeof buffer);
    EXPECT(answer.number == FJURKE_TAKEN);
    EXPECT(answer.row == 0);
    EXPECT(answer.length == sizeof record);
    EXPECT(memcmp(buffer, record, sizeof record) == 0);
    EXPECT(buffer[sizeof record] == 0xa5);
    EXPECT(fjurke_write(table, buffer, sizeof record - 1).number == FJURKE_BUFFER_SHORT);
}

static void refusals_name_rows(void)
{
    struct fjurke_table table = table_of(record, sizeof record);
    table.d[1] = 10;
    struct fjurke_write_answer wrote = fjurke_write(table, NULL, 0);
    EXPECT(wrote.number == FJURKE_TABLE_ROW && wrote.row == 2 && wrote.length == 0);
    table.d[1] = 9;
    table.c[1] = 7;
    struct fjurke_test_answer tested = fjurke_test(table);
    EXPECT(tested.number == FJURKE_TABLE_OVERLOADED && tested.row == 2 && tested.k == 0);
    struct fjurke_start_answer started = fjurke_start(table);
    EXPECT(started.number == FJURKE_TABLE_OVERLOADED && started.row == 2 && started.state.n == 0);

    uint8_t falling[sizeof record];
    memcpy(falling, record, sizeof record);
    falling[13] = 6;
    falling[15] = 6;
    struct fjurke_read_answer read = fjurke_read(falling, sizeof falling);
    EXPECT(read.number == FJURKE_TABLE_ORDER && read.row == 2 && read.table.n == 0);
    EXPECT(fjurke_read(NULL, 0).number == FJURKE_RECORD_SHORT);
}

static void allowances(void)
{
    struct fjurke_test_answer answer = fjurke_test(table_of(record, sizeof record));
    EXPECT(answer.number == FJURKE_TAKEN);
    EXPECT(answer.k == 2);
    EXPECT(answer.row == 0);
    SAME(answer.each, 3, 4, 2);
}

static void slot(struct fjurke_state *state, uint8_t lost, uint8_t used, size_t who, uint16_t word, uint32_t late_rows)
{
    struct fjurke_slot_answer answer = fjurke_slot(state, lost);
    EXPECT(answer.number == FJURKE_TAKEN);
    EXPECT(answer.used == used);
    EXPECT(answer.who == who);
    EXPECT(answer.word == word);
    EXPECT(answer.late_rows == late_rows);
}

static void ask(struct fjurke_state *state, uint16_t name, uint16_t size, uint8_t number)
{
    struct fjurke_request_answer answer = fjurke_request(state, (struct fjurke_ask){.name = name, .size = size});
    EXPECT(answer.number == number);
    EXPECT(answer.row == 0);
}

/* Fifteen slots, after which no two figures of the state are mistaken for each other. */
static void fifteen_slots(struct fjurke_state *state)
{
    slot(state, 0, FJURKE_HARD, 1, 0, 0);
    slot(state, 0, FJURKE_HARD, 1, 0, 0);
    slot(state, 0, FJURKE_HARD, 2, 0, 0);
    slot(state, 0, FJURKE_HARD, 3, 0, 0);
    slot(state, 0, FJURKE_HARD, 3, 0, 0);
    slot(state, 0, FJURKE_HARD, 3, 0, 0);
    slot(state, 0, FJURKE_EMPTY, 0, 0, 0);
    ask(state, 700, 2, FJURKE_TAKEN);
    ask(state, 701, 5, FJURKE_TAKEN);
    ask(state, 702, 9, FJURKE_TAKEN);
    ask(state, 703, 0, FJURKE_REQUEST_EMPTY);
    slot(state, 0, FJURKE_GIVEN, 700, 0, 0);
    slot(state, 0, FJURKE_GIVEN, 700, 0, 0);
    slot(state, 1, FJURKE_LOST, 0, 0, 0);
    slot(state, 2, FJURKE_LOST, 0, 0, 0);
    slot(state, 255, FJURKE_LOST, 0, 1, 1);
    slot(state, 0, FJURKE_HARD, 2, 0, 0);
    slot(state, 0, FJURKE_GIVEN, 701, 0, 0);
    slot(state, 0, FJURKE_GIVEN, 701, 0, 0);
}

static void every_field_of_a_state(void)
{
    struct fjurke_start_answer start = fjurke_start(table_of(record, sizeof record));
    EXPECT(start.number == FJURKE_TAKEN);
    EXPECT(start.row == 0);
    struct fjurke_state state = start.state;
    fifteen_slots(&state);
    EXPECT(state.n == 3);
    EXPECT(state.next == 16);
    SAME(state.c, 2, 1, 3);
    SAME(state.t, 7, 9, 20);
    SAME(state.d, 5, 9, 11);
    SAME(state.k, 3, 4, 2);
    SAME(state.left, 2);
    SAME(state.counter, 2, 3, 1);
    EXPECT(state.late[0] == 1 && state.late[1] == 0 && state.late[15] == 0);
    EXPECT(state.count == 2);
    SAME(state.names, 701, 702);
    SAME(state.sizes, 3, 9);
    EXPECT(state.hard == 7);
    EXPECT(state.given == 4);
    EXPECT(state.empty == 1);
    EXPECT(state.lost == 3);
    struct fjurke_sum_answer sum = fjurke_late_total(state);
    EXPECT(sum.number == FJURKE_TAKEN && sum.total == 1);
}

static void two_rows_late_at_once(void)
{
    static const uint8_t twins[] = {1, 0, 13, 2, 0, 1, 0, 2, 0, 2, 0, 1, 0, 2, 0, 2};
    struct fjurke_state state = fjurke_start(table_of(twins, sizeof twins)).state;
    slot(&state, 1, FJURKE_LOST, 0, 0, 0);
    slot(&state, 1, FJURKE_LOST, 0, 3, 2);
    EXPECT(fjurke_late_total(state).total == 2);
}

static void a_refused_slot_changes_nothing(void)
{
    struct fjurke_state state;
    memset(&state, 0xa5, sizeof state);
    struct fjurke_state before = state;
    struct fjurke_slot_answer answer = fjurke_slot(&state, 1);
    EXPECT(answer.number == FJURKE_STATE_ILLEGAL && answer.used == FJURKE_EMPTY && answer.who == 0);
    ask(&state, 1, 1, FJURKE_STATE_ILLEGAL);
    EXPECT(memcmp(&state, &before, sizeof state) == 0);
    EXPECT(fjurke_late_total(state).number == FJURKE_STATE_ILLEGAL);
}

/* The bytes around a lent state are nobody's business. */
static void nothing_is_written_beside_a_state(void)
{
    struct {
        uint8_t before[64];
        struct fjurke_state state;
        uint8_t after[64];
    } room;
    memset(&room, 0xa5, sizeof room);
    room.state = fjurke_start(table_of(record, sizeof record)).state;
    fifteen_slots(&room.state);
    for (size_t i = 0; i < sizeof room.before; i++)
        EXPECT(room.before[i] == 0xa5 && room.after[i] == 0xa5);
}

int main(void)
{
    read_and_write();
    refusals_name_rows();
    allowances();
    every_field_of_a_state();
    two_rows_late_at_once();
    a_refused_slot_changes_nothing();
    nothing_is_written_beside_a_state();
    if (faults == 0)
        printf("the header agrees with the library\n");
    return faults != 0;
}
