/*
 * Lists a unit file: reads it from standard input and writes its listing to
 * standard output. The status is 0 for an accepted file, 1 for a refused one,
 * and 2 where reading, writing or memory failed.
 *
 * Written from docs/FORMATS.md and docs/RECEIVER.md alone, independently of
 * the proved program. Both must agree, byte for byte, on every file.
 *
 * Build: gcc -O3 -std=c11 -Wall -Wextra -Werror -pedantic -o decoder decoder.c
 */
#include <stdbool.h>
#include <stddef.h>
#include <stdint.h>
#include <stdio.h>
#include <stdlib.h>

enum {
    MAX_FILE       = 60000,
    HEADER_SIZE    = 20,
    MAX_CAPTURE    = 24576,
    COUNTER_RECORD = 4,
    LOG_RECORD     = 8,
    TIMER_RANGE    = 65536,
    MAX_NIBBLES    = 6,
    MAX_INTERVAL   = 16777215,
    SHORT_PAIRS    = 16,
    ENHANCED_PAIRS = 18,
    RING           = 32,        /* a power of two that holds the longest message */
    MAX_LINE       = 48
};

/* Later than every event, so that a source at its end loses the merge. */
#define NO_EVENT UINT64_MAX

/* Entry i is i times x^4 modulo x^4 + x^3 + x^2 + 1. */
static const uint8_t check4[16] = {
    0, 13, 7, 10, 14, 3, 9, 4, 1, 12, 6, 11, 15, 2, 8, 5
};

/* Entry i is i times x^6 modulo x^6 + x^4 + x^3 + 1. */
static const uint8_t check6[64] = {
     0, 25, 50, 43, 61, 36, 15, 22, 35, 58, 17,  8, 30,  7, 44, 53,
    31,  6, 45, 52, 34, 59, 16,  9, 60, 37, 14, 23,  1, 24, 51, 42,
    62, 39, 12, 21,  3, 26, 49, 40, 29,  4, 47, 54, 32, 57, 18, 11,
    33, 56, 19, 10, 28,  5, 46, 55,  2, 27, 48, 41, 63, 38, 13, 20
};

/* What the file says of a channel. */
struct setup {
    uint32_t       k, n, length;
    const uint8_t *capture;
};

struct event {
    uint64_t time;
    uint32_t place;
    bool     is_break;
};

struct source {
    const uint8_t *next, *end;  /* the records not yet read */
    uint32_t       next_place;
    bool           had_edge;
    uint64_t       last_edge;   /* 0 where there was none */
    uint64_t       wrapped;     /* what the timer's wraps add to its values */
    struct event   event;       /* the one that is due */
};

enum state { LOST, HUNTING, EXPECTING, INSIDE };

struct channel {
    char       name;
    bool       enhanced;        /* serial format */
    uint32_t   n;
    uint32_t   window_min, window_max;
    enum state state;
    uint64_t   last_time;       /* of the last edge */
    uint32_t   last_place;
    uint32_t   calibration;     /* counts of the frame's first pulse */
    uint32_t   frame_place;     /* of the frame's first edge */
    uint32_t   received;        /* nibbles of the frame so far */
    uint8_t    status;
    uint8_t    data[MAX_NIBBLES];
    uint8_t    check;           /* over the data nibbles so far */
    uint32_t   pairs;           /* since the latest fault of the pulses */
    uint32_t   bits3, bits2;    /* of the pairs, the newest lowest */
    uint32_t   ring[RING];      /* places of the latest frames */
    uint32_t   frames;
};

/* ---- Lines ---- */

static char *put_field(char *out, uint64_t value)
{
    *out++ = ' ';
    /* All values are below 2^40, so the limit cannot wrap. */
    char *end = out + 1;
    for (uint64_t limit = 10; value >= limit; limit *= 10)
        end++;
    char *digit = end;
    do {
        *--digit = (char)('0' + value % 10);
        value /= 10;
    } while (value != 0);
    return end;
}

static char *put_letter(char *out, char letter)
{
    *out++ = ' ';
    *out++ = letter;
    return out;
}

/* The fields that every report begins with. */
static char *put_report(char *out, char name, uint64_t time, char kind, uint32_t place)
{
    *out++ = name;
    out = put_field(out, time);
    out = put_letter(out, kind);
    return put_field(out, place);
}

static char *put_frame(char *out, const struct channel *ch, uint64_t time)
{
    static const char hex[] = "0123456789ABCDEF";
    out = put_report(out, ch->name, time, 'F', ch->frame_place);
    out = put_letter(out, hex[ch->status]);
    *out++ = ' ';
    for (uint32_t i = 0; i < ch->n; i++)
        *out++ = hex[ch->data[i]];
    *out++ = '\n';
    return out;
}

static char *put_message(char *out, const struct channel *ch, uint64_t time, uint32_t place,
                         uint32_t id, uint32_t data)
{
    out = put_report(out, ch->name, time, 'M', place);
    out = put_letter(out, ch->enhanced ? 'E' : 'S');
    out = put_field(out, id);
    out = put_field(out, data);
    *out++ = '\n';
    return out;
}

static char *put_fault(char *out, const struct channel *ch, const struct event *ev, uint32_t number)
{
    out = put_report(out, ch->name, ev->time, 'X', ev->place);
    out = put_field(out, number);
    *out++ = '\n';
    return out;
}

/* ---- From records to events ---- */

static uint32_t get_u16(const uint8_t *p)
{
    return (uint32_t)p[0] << 8 | p[1];
}

static uint32_t get_u32(const uint8_t *p)
{
    return get_u16(p) << 16 | get_u16(p + 2);
}

static void set_break(struct source *s, uint32_t place)
{
    s->event = (struct event){ .time = s->last_edge, .place = place, .is_break = true };
}

static void set_edge(struct source *s, uint32_t place, uint64_t time)
{
    if (s->had_edge && time <= s->last_edge) {
        set_break(s, place);
        return;
    }
    s->had_edge = true;
    s->last_edge = time;
    s->event = (struct event){ .time = time, .place = place, .is_break = false };
}

static void advance_counter(struct source *s)
{
    while (s->next != s->end) {
        const uint8_t *record = s->next;
        uint32_t place = s->next_place++;
        s->next += COUNTER_RECORD;
        if (record[1] == 'O') {
            s->wrapped += TIMER_RANGE;
            continue;
        }
        if (record[1] == 'C')
            set_edge(s, place, s->wrapped + get_u16(record + 2));
        else
            set_break(s, place);
        return;
    }
    s->event.time = NO_EVENT;
}

static void advance_log(struct source *s)
{
    if (s->next == s->end) {
        s->event.time = NO_EVENT;
        return;
    }
    const uint8_t *record = s->next;
    uint32_t place = s->next_place++;
    s->next += LOG_RECORD;
    if (record[1] == 'A')
        set_edge(s, place, (uint64_t)get_u16(record + 2) << 32 | get_u32(record + 4));
    else
        set_break(s, place);
}

/* ---- Serial messages ---- */

static char *tell_short(const struct channel *ch, const struct event *ev, uint32_t place, char *out)
{
    if ((ch->bits3 & 0xFFFF) != 0x8000)
        return out;
    uint32_t id = ch->bits2 >> 12 & 0xF;
    uint32_t data = ch->bits2 >> 4 & 0xFF;
    uint32_t check = check4[5] ^ id;
    check = check4[check] ^ data >> 4;
    check = check4[check] ^ (data & 0xF);
    if (check4[check] != (ch->bits2 & 0xF))
        return put_fault(out, ch, ev, 501);
    return put_message(out, ch, ev->time, place, id, data);
}

/* Moves the lowest three bits apart, to leave a gap above each. */
static uint32_t spread(uint32_t bits)
{
    return (bits & 4) << 2 | (bits & 2) << 1 | (bits & 1);
}

static uint32_t enhanced_check(uint32_t bits3, uint32_t bits2)
{
    uint32_t check = 21;
    for (int shift = 9; shift >= 0; shift -= 3) {
        uint32_t group = spread(bits2 >> shift) << 1 | spread(bits3 >> shift);
        check = check6[check] ^ group;
    }
    return check6[check];
}

static char *tell_enhanced(const struct channel *ch, const struct event *ev, uint32_t place, char *out)
{
    /* Pair i of the message is bit 18 - i here. */
    uint32_t bits3 = ch->bits3, bits2 = ch->bits2;
    if ((bits3 & 0x3F821) != 0x3F000)
        return out;
    if (enhanced_check(bits3, bits2) != (bits2 >> 12 & 0x3F))
        return put_fault(out, ch, ev, 501);
    uint32_t first = bits3 >> 6 & 0xF;      /* pairs 9 to 12 */
    uint32_t second = bits3 >> 1 & 0xF;     /* pairs 14 to 17 */
    uint32_t data = bits2 & 0xFFF;
    if (bits3 >> 10 & 1)                    /* the configuration */
        return put_message(out, ch, ev->time, place, first, second << 12 | data);
    return put_message(out, ch, ev->time, place, first << 4 | second, data);
}

/* Takes the pair of the frame that has just come. */
static char *take_pair(struct channel *ch, const struct event *ev, char *out)
{
    uint32_t length = ch->enhanced ? ENHANCED_PAIRS : SHORT_PAIRS;
    ch->bits3 = ch->bits3 << 1 | (ch->status >> 3 & 1);
    ch->bits2 = ch->bits2 << 1 | (ch->status >> 2 & 1);
    ch->ring[ch->pairs % RING] = ch->frame_place;
    ch->pairs++;
    if (ch->pairs < length)
        return out;
    uint32_t place = ch->ring[(ch->pairs - length) % RING];
    return ch->enhanced ? tell_enhanced(ch, ev, place, out) : tell_short(ch, ev, place, out);
}

/* ---- Pulses ---- */

/* A fault of the pulses also drops the pairs that came before it. */
static char *fail(struct channel *ch, const struct event *ev, enum state next, uint32_t number, char *out)
{
    ch->state = next;
    ch->pairs = 0;
    return put_fault(out, ch, ev, number);
}

static bool in_window(const struct channel *ch, uint32_t interval)
{
    return interval >= ch->window_min && interval <= ch->window_max;
}

static void begin_frame(struct channel *ch, uint32_t interval, uint32_t place)
{
    ch->state = INSIDE;
    ch->calibration = interval;
    ch->frame_place = place;
    ch->received = 0;
    ch->check = 5;
}

static char *take_nibble(struct channel *ch, const struct event *ev, uint8_t nibble, char *out)
{
    uint32_t index = ch->received++;
    if (index == 0) {
        ch->status = nibble;
        return out;
    }
    if (index <= ch->n) {
        ch->data[index - 1] = nibble;
        ch->check = check4[ch->check] ^ nibble;
        return out;
    }
    if (check4[ch->check] != nibble)
        return fail(ch, ev, EXPECTING, 401, out);
    ch->state = EXPECTING;
    ch->frames++;
    out = put_frame(out, ch, ev->time);
    return take_pair(ch, ev, out);
}

static char *step(struct channel *ch, const struct event *ev, char *out)
{
    if (ev->is_break)
        return fail(ch, ev, LOST, 201, out);

    uint64_t gap = ev->time - ch->last_time;
    uint32_t previous = ch->last_place;
    ch->last_time = ev->time;
    ch->last_place = ev->place;

    if (ch->state == LOST) {
        ch->state = HUNTING;
        return out;
    }
    /* An edge before the last one would wrap to a great gap. */
    if (gap == 0 || gap > MAX_INTERVAL)
        return fail(ch, ev, HUNTING, 202, out);

    uint32_t interval = (uint32_t)gap;
    if (ch->state != INSIDE) {
        if (in_window(ch, interval))
            begin_frame(ch, interval, previous);
        else if (ch->state == EXPECTING)
            return fail(ch, ev, HUNTING, 301, out);
        return out;
    }

    /* 112 times the longest interval still fits in 32 bits. */
    uint32_t ticks = (112 * interval + ch->calibration) / (2 * ch->calibration);
    if (ticks < 12)
        return fail(ch, ev, HUNTING, 302, out);
    if (ticks > 27) {
        out = fail(ch, ev, HUNTING, 303, out);
        if (in_window(ch, interval))
            begin_frame(ch, interval, previous);
        return out;
    }
    return take_nibble(ch, ev, (uint8_t)(ticks - 12), out);
}

/* ---- Which files are refused ---- */

/* These answer 0 or the number of the refusal. */

static uint32_t check_counter_record(const uint8_t *r)
{
    if (r[0] != 'S' || (r[1] != 'C' && r[1] != 'O' && r[1] != 'L'))
        return 2;
    return r[1] != 'C' && get_u16(r + 2) != 0 ? 3 : 0;
}

static uint32_t check_log_record(const uint8_t *r)
{
    if (r[0] != 'S' || (r[1] != 'A' && r[1] != 'L'))
        return 2;
    /* A time is below 2^40 if the first of its six bytes is zero. */
    if (r[1] == 'A')
        return r[2] != 0 ? 3 : 0;
    return (get_u16(r + 2) | get_u32(r + 4)) != 0 ? 3 : 0;
}

static uint32_t check_channel(const struct setup *s, bool counter, uint32_t *record)
{
    uint32_t size = counter ? COUNTER_RECORD : LOG_RECORD;
    if (s->k < 560 || s->k > 4000000)
        return 4;
    if (s->n < 1 || s->n > MAX_NIBBLES)
        return 5;
    if (s->length > MAX_CAPTURE || s->length % size != 0)
        return 1;
    for (uint32_t at = 0; at < s->length; at += size) {
        const uint8_t *r = s->capture + at;
        uint32_t number = counter ? check_counter_record(r) : check_log_record(r);
        if (number != 0) {
            *record = at / size;
            return number;
        }
    }
    return 0;
}

static struct setup get_setup(const uint8_t *p)
{
    return (struct setup){ .k = get_u32(p), .n = p[4], .length = get_u32(p + 5) };
}

/* Sets up both channels; a refusal names one, or '-', and a record. */
static uint32_t check_file(const uint8_t *file, size_t size, struct setup *a, struct setup *b,
                           char *name, uint32_t *record)
{
    *name = '-';
    *record = 0;
    if (size > MAX_FILE || size < HEADER_SIZE || file[0] != 'S' || file[1] != 'U')
        return 10;
    *a = get_setup(file + 2);
    *b = get_setup(file + 11);
    if ((uint64_t)HEADER_SIZE + a->length + b->length != size)
        return 10;
    a->capture = file + HEADER_SIZE;
    b->capture = a->capture + a->length;

    *name = 'A';
    uint32_t number = check_channel(a, true, record);
    if (number != 0)
        return number;
    *name = 'B';
    return check_channel(b, false, record);
}

/* ---- The listing ---- */

static struct source new_source(const struct setup *s)
{
    return (struct source){ .next = s->capture, .end = s->capture + s->length };
}

static struct channel new_channel(char name, bool enhanced, const struct setup *s)
{
    /* 4 * k <= 5 * interval <= 6 * k, solved for the interval. */
    return (struct channel){
        .name = name, .enhanced = enhanced, .n = s->n, .state = LOST,
        .window_min = (4 * s->k + 4) / 5, .window_max = 6 * s->k / 5
    };
}

static char *list_unit(const struct setup *setup_a, const struct setup *setup_b, char *out)
{
    struct source source_a = new_source(setup_a), source_b = new_source(setup_b);
    struct channel a = new_channel('A', false, setup_a), b = new_channel('B', true, setup_b);

    advance_counter(&source_a);
    advance_log(&source_b);
    for (;;) {
        if (source_b.event.time < source_a.event.time) {
            out = step(&b, &source_b.event, out);
            advance_log(&source_b);
        } else if (source_a.event.time != NO_EVENT) {
            out = step(&a, &source_a.event, out);
            advance_counter(&source_a);
        } else {
            break;
        }
    }
    *out++ = 'Z';
    out = put_field(out, a.frames);
    out = put_field(out, b.frames);
    *out++ = '\n';
    return out;
}

static char *list_refusal(uint32_t number, char name, uint32_t record, char *out)
{
    *out++ = 'R';
    out = put_field(out, number);
    out = put_letter(out, name);
    out = put_field(out, record);
    *out++ = '\n';
    return out;
}

int main(void)
{
    static uint8_t file[MAX_FILE + 1];

    /* Without a buffer no byte is read beyond those asked for. */
    setvbuf(stdin, NULL, _IONBF, 0);
    size_t size = fread(file, 1, sizeof file, stdin);
    if (ferror(stdin))
        return 2;

    /* A record has four bytes or more and gives two lines at most. */
    char *listing = malloc(size / COUNTER_RECORD * 2 * MAX_LINE + MAX_LINE);
    if (listing == NULL)
        return 2;

    struct setup a, b;
    char name;
    uint32_t record;
    uint32_t number = check_file(file, size, &a, &b, &name, &record);
    char *end = number == 0 ? list_unit(&a, &b, listing) : list_refusal(number, name, record, listing);

    size_t length = (size_t)(end - listing);
    bool written = fwrite(listing, 1, length, stdout) == length && fflush(stdout) == 0;
    free(listing);
    if (!written)
        return 2;
    return number == 0 ? 0 : 1;
}
