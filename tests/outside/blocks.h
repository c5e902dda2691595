/* What unit files are made of: random numbers, bytes, heads that send, captures. The rules are those of docs/FORMATS.md
 * and docs/RECEIVER.md. */
#ifndef BLOCKS_H
#define BLOCKS_H

#include <stdbool.h>
#include <stddef.h>
#include <stdint.h>

enum {
    LEAST_K = 560,
    GREATEST_K = 4000000,
    GREATEST_N = 6,
    HEADER_BYTES = 20,
    FILE_LIMIT = 60000,
    CAPTURE_LIMIT = 24576,
    COUNTER_RECORD = 4,
    LOG_RECORD = 8,
    LONGEST_INTERVAL = 16777215,
    CALIBRATION_TICKS = 56,
    SHORT_PAIRS = 16,
    ENHANCED_PAIRS = 18
};
#define TIME_LIMIT (UINT64_C(1) << 40)

/* Random numbers (splitmix64). Equal seeds give equal numbers on every machine; so that this holds of what is made of
 * them too, no expression draws twice. */
struct dice {
    uint64_t state;
};
uint64_t draw(struct dice *dice);
uint64_t below(struct dice *dice, uint64_t limit);
uint64_t between(struct dice *dice, uint64_t low, uint64_t high);
bool one_in(struct dice *dice, unsigned times);

/* A list of bytes that grows. */
struct bytes {
    uint8_t *data;
    size_t length, room;
};
void put_byte(struct bytes *out, uint8_t byte);
void put_number(struct bytes *out, uint64_t number, unsigned width);
void put_bytes(struct bytes *out, const uint8_t *data, size_t length);
void free_bytes(struct bytes *bytes);

/* What a capture notes down, before it is written. */
enum what { EDGE, LOST, WRAP };
struct mark {
    enum what what;
    uint64_t time; /* of an edge */
};
struct marks {
    struct mark *items;
    size_t length, room;
};
void insert_mark(struct marks *marks, size_t at, enum what what, uint64_t time);
void add_mark(struct marks *marks, enum what what, uint64_t time);
void drop_mark(struct marks *marks, size_t at);
void free_marks(struct marks *marks);

/* A head and the marks that its edges leave. Its edges are counted in ticks from the origin and rounded one by one, so
 * that errors do not add up. */
struct head {
    struct dice *dice;
    struct marks marks;
    uint32_t k;
    unsigned n;
    bool counter;    /* it is captured by a counter, not by a log */
    size_t budget;   /* records that its capture should have, more or less */
    uint64_t c;      /* counts of its calibration pulse */
    uint64_t jitter; /* counts by which each edge may come early or late */
    uint64_t origin, ticks;
};
uint64_t least_calibration(uint32_t k);
uint64_t greatest_calibration(uint32_t k);
uint64_t head_time(const struct head *head);
void set_calibration(struct head *head, uint64_t c);
void pass_counts(struct head *head, uint64_t counts);
void send_edge(struct head *head);
void send_ticks(struct head *head, uint64_t ticks);
void send_counts(struct head *head, uint64_t counts);
void send_frame(struct head *head, unsigned status, const uint8_t *data, unsigned check);

unsigned check4(const uint8_t *nibbles, unsigned length);
unsigned check6(const uint8_t *groups, unsigned length);

/* The pairs of bits of a serial message. */
struct message {
    unsigned length;
    uint8_t high[ENHANCED_PAIRS], low[ENHANCED_PAIRS];
};
/* `wrong` is laid over the check: 0 leaves it right. */
struct message short_message(unsigned id, unsigned data, unsigned wrong);
struct message enhanced_message(unsigned configuration, unsigned id, unsigned data, unsigned wrong);
unsigned pair_status(const struct message *message, unsigned at);

/* A unit file in its parts; the lengths said need not be those of the captures. */
struct unit {
    uint8_t mark[2];
    uint32_t k[2];
    uint8_t n[2];
    uint32_t said[2];
    struct bytes capture[2];
};
void put_counter_capture(struct bytes *out, const struct marks *marks, size_t limit);
void put_absolute_log(struct bytes *out, const struct marks *marks, size_t limit);
void set_channel(struct unit *unit, unsigned channel, const struct head *head, size_t limit);
void put_unit(struct bytes *out, const struct unit *unit);
void free_unit(struct unit *unit);

#endif
