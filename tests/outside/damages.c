/* Damage to unit files, most of it such that the file is refused. */
#include "kinds.h"

#include <string.h>

static unsigned pick_channel(struct dice *dice)
{
    return (unsigned)below(dice, 2);
}

static size_t record_size(unsigned channel)
{
    return channel == 0 ? COUNTER_RECORD : LOG_RECORD;
}

static uint8_t pick_letter(struct dice *dice)
{
    static const char letters[] = "SUCOLAscola";
    if (one_in(dice, 3))
        return (uint8_t)below(dice, 256);
    return (uint8_t)letters[below(dice, sizeof letters - 1)];
}

static void wrong_mark(struct dice *dice, struct unit *unit)
{
    unsigned at = (unsigned)below(dice, 2);
    unit->mark[at] = pick_letter(dice);
}

/* One length that is a little off, or far off. */
static void wrong_length(struct dice *dice, struct unit *unit)
{
    uint32_t *said = &unit->said[pick_channel(dice)];
    switch (below(dice, 4)) {
    case 0:
        *said += (uint32_t)between(dice, 1, 8);
        break;
    case 1:
        *said -= (uint32_t)between(dice, 1, 8);
        break;
    case 2:
        *said = (uint32_t)draw(dice);
        break;
    default:
        *said = one_in(dice, 2) ? UINT32_MAX - (uint32_t)below(dice, 24) : 0;
    }
}

/* Both lengths are off and their sum is right: the border between the captures moves. */
static void moved_border(struct dice *dice, struct unit *unit)
{
    uint32_t by = (uint32_t)between(dice, 1, 16);
    unsigned from = pick_channel(dice);
    if (by > unit->said[from])
        by = unit->said[from];
    unit->said[from] -= by;
    unit->said[1 - from] += by;
}

/* The sum is right only if it wraps at 2^32. */
static void wrapping_lengths(struct dice *dice, struct unit *unit)
{
    uint32_t by = (uint32_t)draw(dice) | 0x80000000u;
    unsigned from = pick_channel(dice);
    unit->said[from] -= by;
    unit->said[1 - from] += by;
}

static void said_as_is(struct unit *unit, unsigned channel)
{
    unit->said[channel] = (uint32_t)unit->capture[channel].length;
}

/* Some bytes of a record too many. */
static void odd_capture(struct dice *dice, struct unit *unit)
{
    unsigned channel = pick_channel(dice);
    uint64_t left = between(dice, 1, record_size(channel) - 1);
    while (left-- > 0)
        put_byte(&unit->capture[channel], one_in(dice, 2) ? 'S' : 0);
    said_as_is(unit, channel);
}

/* Makes a capture as long as is said, with lost edges or, where even those are cut, zeros. */
static void stretch(struct unit *unit, unsigned channel, size_t length)
{
    struct bytes *capture = &unit->capture[channel];
    size_t size = record_size(channel);
    capture->length -= capture->length % size;
    while (capture->length < length) {
        size_t at = capture->length % size;
        put_byte(capture, at == 0 ? 'S' : at == 1 ? 'L' : 0);
    }
    capture->length = length;
    said_as_is(unit, channel);
}

/* A capture of as many records as it may have, one less, or one or two more. */
static void greatest_capture(struct dice *dice, struct unit *unit)
{
    unsigned channel = pick_channel(dice);
    size_t size = record_size(channel);
    stretch(unit, channel, CAPTURE_LIMIT - size + below(dice, 4) * size);
}

/* A file about as long as it may be, or much longer. Its captures cannot both be short enough. */
static void greatest_file(struct dice *dice, struct unit *unit)
{
    static const size_t lengths[] = {59999, 60000, 60000, 60001, 60001, 60002, 65536, 65556, 100000};
    size_t length = lengths[below(dice, sizeof lengths / sizeof *lengths)] - HEADER_BYTES;
    size_t a = one_in(dice, 2) ? CAPTURE_LIMIT : below(dice, length / 4) * 4;
    stretch(unit, 0, a);
    stretch(unit, 1, length - a);
}

/* The first byte of some record of a channel; a capture that has none is given one. */
static uint8_t *pick_record(struct dice *dice, struct unit *unit, unsigned channel)
{
    size_t size = record_size(channel);
    if (unit->capture[channel].length < size)
        stretch(unit, channel, size);
    size_t count = unit->capture[channel].length / size;
    return unit->capture[channel].data + below(dice, count) * size;
}

static void wrong_record_mark(struct dice *dice, struct unit *unit)
{
    uint8_t *record = pick_record(dice, unit, pick_channel(dice));
    size_t at = (size_t)below(dice, 2);
    record[at] = pick_letter(dice);
}

/* A record with a filler, of which one byte is not zero. */
static void wrong_filler(struct dice *dice, struct unit *unit)
{
    unsigned channel = pick_channel(dice);
    uint8_t *record = pick_record(dice, unit, channel);
    size_t size = record_size(channel);
    memset(record + 2, 0, size - 2);
    record[1] = channel == 0 && one_in(dice, 2) ? 'O' : 'L';
    size_t at = (size_t)between(dice, 2, size - 1);
    record[at] = (uint8_t)between(dice, 1, 255);
}

/* A time of 2^40 or more, or the last one below it. */
static void late_time(struct dice *dice, struct unit *unit)
{
    static const uint64_t times[] = {TIME_LIMIT - 1, TIME_LIMIT, TIME_LIMIT, TIME_LIMIT + 1, (UINT64_C(1) << 48) - 1, UINT64_C(1) << 47};
    uint8_t *record = pick_record(dice, unit, 1);
    uint64_t time = times[below(dice, sizeof times / sizeof *times)];
    if (one_in(dice, 3))
        time = between(dice, TIME_LIMIT, (UINT64_C(1) << 48) - 1);
    record[1] = 'A';
    for (unsigned i = 0; i < 6; i++)
        record[7 - i] = (uint8_t)(time >> 8 * i);
}

static void wrong_k(struct dice *dice, struct unit *unit)
{
    static const uint32_t ks[] = {
        0, 559, 559, 560, 4000000, 4000001, 4000001, 560 + 65536, 0x80000000, 0x80000000 + 560, 0xFFFFFFFF,
    };
    uint32_t k = ks[below(dice, sizeof ks / sizeof *ks)];
    unit->k[pick_channel(dice)] = k;
}

static void wrong_n(struct dice *dice, struct unit *unit)
{
    static const uint8_t ns[] = {0, 0, 1, 6, 7, 7, 8, 16, 128, 255};
    uint8_t n = ns[below(dice, sizeof ns / sizeof *ns)];
    unit->n[pick_channel(dice)] = n;
}

/* Records that were swapped, doubled or left out: the file may well be accepted. */
static void mislaid_record(struct dice *dice, struct unit *unit)
{
    unsigned channel = pick_channel(dice);
    size_t size = record_size(channel);
    uint8_t held[LOG_RECORD];
    uint8_t *one = pick_record(dice, unit, channel);
    uint8_t *other = pick_record(dice, unit, channel);
    memcpy(held, one, size);
    if (one_in(dice, 2))
        memmove(one, other, size);
    memcpy(other, held, size);
}

const struct part_damage part_damages[] = {
    {"wrong mark", wrong_mark},
    {"wrong length", wrong_length},
    {"moved border", moved_border},
    {"wrapping lengths", wrapping_lengths},
    {"odd capture", odd_capture},
    {"greatest capture", greatest_capture},
    {"greatest file", greatest_file},
    {"wrong record mark", wrong_record_mark},
    {"wrong record mark", wrong_record_mark},
    {"wrong filler", wrong_filler},
    {"wrong filler", wrong_filler},
    {"late time", late_time},
    {"late time", late_time},
    {"wrong K", wrong_k},
    {"wrong K", wrong_k},
    {"wrong N", wrong_n},
    {"wrong N", wrong_n},
    {"mislaid record", mislaid_record},
};
const unsigned part_damage_count = sizeof part_damages / sizeof *part_damages;

static void short_header(struct dice *dice, struct bytes *file)
{
    file->length = (size_t)below(dice, HEADER_BYTES);
}

static void cut(struct dice *dice, struct bytes *file)
{
    file->length = (size_t)below(dice, file->length + 1);
}

static void append(struct dice *dice, struct bytes *file)
{
    uint64_t left = between(dice, 1, 20);
    while (left-- > 0)
        put_byte(file, one_in(dice, 2) ? 0 : (uint8_t)draw(dice));
}

static void flip_bits(struct dice *dice, struct bytes *file)
{
    uint64_t left = between(dice, 1, 4);
    while (left-- > 0 && file->length > 0) {
        size_t at = (size_t)below(dice, file->length);
        unsigned bit = (unsigned)below(dice, 8);
        file->data[at] ^= (uint8_t)(1u << bit);
    }
}

static void change_header(struct dice *dice, struct bytes *file)
{
    if (file->length < HEADER_BYTES)
        return;
    size_t at = (size_t)below(dice, HEADER_BYTES);
    file->data[at] = one_in(dice, 2) ? (uint8_t)draw(dice) : (uint8_t)(file->data[at] + 1);
}

static void random_bytes(struct dice *dice, struct bytes *file)
{
    uint64_t left = below(dice, one_in(dice, 10) ? 70000 : 400);
    file->length = 0;
    while (left-- > 0)
        put_byte(file, (uint8_t)draw(dice));
}

/* A lawful header and lawful lengths, and random bytes for captures. */
static void random_captures(struct dice *dice, struct bytes *file)
{
    struct unit unit = {{'S', 'U'}, {LEAST_K, GREATEST_K}, {1, GREATEST_N}, {0, 0}, {{NULL, 0, 0}, {NULL, 0, 0}}};
    for (unsigned channel = 0; channel < 2; channel++) {
        uint64_t left = below(dice, 50) * record_size(channel);
        while (left-- > 0)
            put_byte(&unit.capture[channel], (uint8_t)draw(dice));
        said_as_is(&unit, channel);
    }
    file->length = 0;
    put_unit(file, &unit);
    free_unit(&unit);
}

const struct byte_damage byte_damages[] = {
    {"short header", short_header}, {"cut", cut},
    {"appended bytes", append},     {"flipped bits", flip_bits},
    {"flipped bits", flip_bits},    {"changed header", change_header},
    {"random bytes", random_bytes}, {"random captures", random_captures},
};
const unsigned byte_damage_count = sizeof byte_damages / sizeof *byte_damages;
