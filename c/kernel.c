/* A kernel in small: it reads its table from a record, then lives through what its timer and its clients bring, and prints each slot.
 * Standard input is the record followed by the events, one byte each: 0 a slot, 1 a lost slot, 2 a request with its name and size. */
#include "fjurkesprek.h"

#include <inttypes.h>
#include <stdio.h>

#define LONGEST_INPUT 65536

struct events {
    const uint8_t *bytes;
    size_t at;
    size_t end;
};

static uint8_t input[LONGEST_INPUT + 1];

static uint16_t big_endian(const uint8_t *two)
{
    return (uint16_t)(two[0] << 8 | two[1]);
}

static size_t record_length(const uint8_t *bytes, size_t length)
{
    if (length < 3)
        return length;
    size_t whole = 3 + (size_t)big_endian(bytes + 1);
    return whole < length ? whole : length;
}

static void print_refusal(uint8_t number, size_t row)
{
    printf("refused %u %zu\n", number, row);
}

static void timer_tick(struct fjurke_state *state, uint8_t lost)
{
    uint64_t slot = state->next;
    struct fjurke_slot_answer answer = fjurke_slot(state, lost);
    if (answer.number != FJURKE_TAKEN) {
        print_refusal(answer.number, 0);
        return;
    }
    printf("%" PRIu64 " ", slot);
    switch (answer.used) {
    case FJURKE_HARD:
        printf("H%zu", answer.who);
        break;
    case FJURKE_GIVEN:
        printf("N%zu", answer.who);
        break;
    case FJURKE_LOST:
        printf("L");
        break;
    default:
        printf("E");
    }
    printf(" %u\n", answer.word);
}

static void client_asks(struct fjurke_state *state, const uint8_t *four)
{
    struct fjurke_ask ask = {.name = big_endian(four), .size = big_endian(four + 2)};
    struct fjurke_request_answer answer = fjurke_request(state, ask);
    if (answer.number != FJURKE_TAKEN)
        print_refusal(answer.number, answer.row);
}

/* Takes one event; 0 if there is none, or none that is known and whole. */
static int live(struct fjurke_state *state, struct events *events)
{
    if (events->at == events->end)
        return 0;
    uint8_t kind = events->bytes[events->at];
    if (kind <= 1) {
        timer_tick(state, kind);
        events->at += 1;
        return 1;
    }
    if (kind == 2 && events->end - events->at >= 5) {
        client_asks(state, events->bytes + events->at + 1);
        events->at += 5;
        return 1;
    }
    printf("bad %zu\n", events->at);
    return 0;
}

static void print_total(const struct fjurke_state *state)
{
    struct fjurke_sum_answer sum = fjurke_late_total(*state);
    printf("total %" PRIu64 " %" PRIu64 " %" PRIu64 " %" PRIu64 " %" PRIu64 "\n",
           state->hard, state->given, state->empty, state->lost, sum.total);
}

int main(void)
{
    size_t length = fread(input, 1, sizeof input, stdin);
    if (length > LONGEST_INPUT) {
        printf("long\n");
        return 0;
    }
    struct events events = {input, record_length(input, length), length};
    struct fjurke_read_answer read = fjurke_read(input, events.at);
    if (read.number != FJURKE_TAKEN) {
        print_refusal(read.number, read.row);
        return 0;
    }
    struct fjurke_start_answer start = fjurke_start(read.table);
    if (start.number != FJURKE_TAKEN) {
        print_refusal(start.number, start.row);
        return 0;
    }
    while (live(&start.state, &events))
        ;
    print_total(&start.state);
    return 0;
}
