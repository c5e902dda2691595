#include "blocks.h"

#include <stdio.h>
#include <stdlib.h>
#include <string.h>

uint64_t draw(struct dice *dice)
{
    uint64_t z = dice->state += UINT64_C(0x9E3779B97F4A7C15);
    z = (z ^ (z >> 30)) * UINT64_C(0xBF58476D1CE4E5B9);
    z = (z ^ (z >> 27)) * UINT64_C(0x94D049BB133111EB);
    return z ^ (z >> 31);
}

uint64_t below(struct dice *dice, uint64_t limit)
{
    return draw(dice) % limit;
}

uint64_t between(struct dice *dice, uint64_t low, uint64_t high)
{
    return low + below(dice, high - low + 1);
}

bool one_in(struct dice *dice, unsigned times)
{
    return below(dice, times) == 0;
}

static void *with_room(void *items, size_t size)
{
    void *room = realloc(items, size);
    if (room == NULL) {
        fputs("out of memory\n", stderr);
        exit(2);
    }
    return room;
}

void put_byte(struct bytes *out, uint8_t byte)
{
    if (out->length == out->room) {
        out->room = 2 * out->room + 64;
        out->data = with_room(out->data, out->room);
    }
    out->data[out->length++] = byte;
}

void put_number(struct bytes *out, uint64_t number, unsigned width)
{
    while (width-- > 0)
        put_byte(out, (uint8_t)(number >> 8 * width));
}

void put_bytes(struct bytes *out, const uint8_t *data, size_t length)
{
    for (size_t i = 0; i < length; i++)
        put_byte(out, data[i]);
}

void free_bytes(struct bytes *bytes)
{
    free(bytes->data);
    *bytes = (struct bytes){NULL, 0, 0};
}

void insert_mark(struct marks *marks, size_t at, enum what what, uint64_t time)
{
    if (marks->length == marks->room) {
        marks->room = 2 * marks->room + 64;
        marks->items = with_room(marks->items, marks->room * sizeof *marks->items);
    }
    memmove(marks->items + at + 1, marks->items + at, (marks->length - at) * sizeof *marks->items);
    marks->items[at] = (struct mark){what, time};
    marks->length++;
}

void add_mark(struct marks *marks, enum what what, uint64_t time)
{
    insert_mark(marks, marks->length, what, time);
}

void drop_mark(struct marks *marks, size_t at)
{
    marks->length--;
    memmove(marks->items + at, marks->items + at + 1, (marks->length - at) * sizeof *marks->items);
}

void free_marks(struct marks *marks)
{
    free(marks->items);
    *marks = (struct marks){NULL, 0, 0};
}

/* The window: 4 K <= 5 c <= 6 K. */
uint64_t least_calibration(uint32_t k)
{
    return (UINT64_C(4) * k + 4) / 5;
}

uint64_t greatest_calibration(uint32_t k)
{
    return UINT64_C(6) * k / 5;
}

uint64_t head_time(const struct head *head)
{
    return head->origin + (head->ticks * head->c + CALIBRATION_TICKS / 2) / CALIBRATION_TICKS;
}

void set_calibration(struct head *head, uint64_t c)
{
    pass_counts(head, 0);
    head->c = c;
}

void pass_counts(struct head *head, uint64_t counts)
{
    head->origin = head_time(head) + counts;
    head->ticks = 0;
}

void send_edge(struct head *head)
{
    uint64_t time = head_time(head);
    if (head->jitter > 0) {
        uint64_t late = below(head->dice, 2 * head->jitter + 1);
        time = time + late > head->jitter ? time + late - head->jitter : 0;
    }
    add_mark(&head->marks, EDGE, time);
}

void send_ticks(struct head *head, uint64_t ticks)
{
    head->ticks += ticks;
    send_edge(head);
}

void send_counts(struct head *head, uint64_t counts)
{
    pass_counts(head, counts);
    send_edge(head);
}

void send_frame(struct head *head, unsigned status, const uint8_t *data, unsigned check)
{
    send_ticks(head, CALIBRATION_TICKS);
    send_ticks(head, 12 + status);
    for (unsigned i = 0; i < head->n; i++)
        send_ticks(head, 12 + data[i]);
    send_ticks(head, 12 + check);
}

/* `value` times x^width modulo the polynomial: what the tables of both checks hold. */
static unsigned table_entry(unsigned value, unsigned width, unsigned polynomial)
{
    for (unsigned i = 0; i < width; i++) {
        value <<= 1;
        if (value >> width & 1)
            value ^= polynomial;
    }
    return value;
}

static unsigned check(const uint8_t *groups, unsigned length, unsigned width, unsigned polynomial, unsigned start)
{
    unsigned value = start;
    for (unsigned i = 0; i < length; i++)
        value = table_entry(value, width, polynomial) ^ groups[i];
    return table_entry(value, width, polynomial);
}

unsigned check4(const uint8_t *nibbles, unsigned length)
{
    return check(nibbles, length, 4, 0x1D, 5);
}

unsigned check6(const uint8_t *groups, unsigned length)
{
    return check(groups, length, 6, 0x59, 21);
}

/* Writes `width` bits of a number, the highest first. */
static void spell(uint8_t *bits, unsigned number, unsigned width)
{
    for (unsigned i = 0; i < width; i++)
        bits[i] = number >> (width - 1 - i) & 1;
}

struct message short_message(unsigned id, unsigned data, unsigned wrong)
{
    struct message message = {.length = SHORT_PAIRS, .high = {1}};
    uint8_t nibbles[3] = {(uint8_t)(id & 15), (uint8_t)(data >> 4 & 15), (uint8_t)(data & 15)};
    spell(message.low, id, 4);
    spell(message.low + 4, data, 8);
    spell(message.low + 12, check4(nibbles, 3) ^ wrong, 4);
    return message;
}

/* The check of pairs 7 to 18: bit 2 before bit 3 of each, six bits to a group. */
static unsigned enhanced_check(const struct message *message)
{
    uint8_t groups[4] = {0, 0, 0, 0};
    for (unsigned pair = 6; pair < ENHANCED_PAIRS; pair++) {
        uint8_t *group = &groups[(pair - 6) / 3];
        *group = (uint8_t)(*group << 2 | message->low[pair] << 1 | message->high[pair]);
    }
    return check6(groups, 4);
}

/* Configuration 0 has an id of 8 bits and 12 data bits, configuration 1 an id of 4 bits and 16 data bits. */
struct message enhanced_message(unsigned configuration, unsigned id, unsigned data, unsigned wrong)
{
    struct message message = {.length = ENHANCED_PAIRS, .high = {1, 1, 1, 1, 1, 1}};
    message.high[7] = configuration & 1;
    spell(message.high + 8, configuration ? id : id >> 4, 4);
    spell(message.high + 13, configuration ? data >> 12 : id, 4);
    spell(message.low + 6, data, 12);
    spell(message.low, enhanced_check(&message) ^ wrong, 6);
    return message;
}

unsigned pair_status(const struct message *message, unsigned at)
{
    return 8u * message->high[at] + 4u * message->low[at];
}

static void put_record(struct bytes *out, char letter, uint64_t content, unsigned size)
{
    put_byte(out, 'S');
    put_byte(out, (uint8_t)letter);
    put_number(out, content, size - 2);
}

/* An edge of a counter, behind as many wraps as its time needs. */
static void put_counter_edge(struct bytes *out, uint64_t time, uint64_t *wraps, size_t limit)
{
    for (; *wraps < time >> 16 && out->length < limit; ++*wraps)
        put_record(out, 'O', 0, COUNTER_RECORD);
    put_record(out, 'C', time & 0xFFFF, COUNTER_RECORD);
}

void put_counter_capture(struct bytes *out, const struct marks *marks, size_t limit)
{
    uint64_t wraps = 0;
    for (size_t i = 0; i < marks->length && out->length < limit; i++) {
        const struct mark *mark = &marks->items[i];
        if (mark->what == EDGE)
            put_counter_edge(out, mark->time, &wraps, limit);
        else
            put_record(out, mark->what == LOST ? 'L' : 'O', 0, COUNTER_RECORD);
        wraps += mark->what == WRAP;
    }
    if (out->length > limit)
        out->length = limit;
}

/* A log knows no wraps, and ends before the first time that it has no room for. */
void put_absolute_log(struct bytes *out, const struct marks *marks, size_t limit)
{
    for (size_t i = 0; i < marks->length && out->length < limit; i++) {
        const struct mark *mark = &marks->items[i];
        if (mark->what == EDGE && mark->time >= TIME_LIMIT)
            return;
        if (mark->what == EDGE)
            put_record(out, 'A', mark->time, LOG_RECORD);
        if (mark->what == LOST)
            put_record(out, 'L', 0, LOG_RECORD);
    }
}

/* Channel 0 is A, which a counter captures; 1 is B. */
void set_channel(struct unit *unit, unsigned channel, const struct head *head, size_t limit)
{
    struct bytes *capture = &unit->capture[channel];
    unit->mark[0] = 'S';
    unit->mark[1] = 'U';
    unit->k[channel] = head->k;
    unit->n[channel] = (uint8_t)head->n;
    capture->length = 0;
    if (channel == 0)
        put_counter_capture(capture, &head->marks, limit);
    else
        put_absolute_log(capture, &head->marks, limit);
    unit->said[channel] = (uint32_t)capture->length;
}

void put_unit(struct bytes *out, const struct unit *unit)
{
    put_bytes(out, unit->mark, 2);
    for (unsigned channel = 0; channel < 2; channel++) {
        put_number(out, unit->k[channel], 4);
        put_byte(out, unit->n[channel]);
        put_number(out, unit->said[channel], 4);
    }
    for (unsigned channel = 0; channel < 2; channel++)
        put_bytes(out, unit->capture[channel].data, unit->capture[channel].length);
}

void free_unit(struct unit *unit)
{
    free_bytes(&unit->capture[0]);
    free_bytes(&unit->capture[1]);
}
