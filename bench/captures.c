/* captures KIND PARTS FILE writes a unit file for the benchmark and prints how many records it has. Its captures have
 * the greatest length that a capture may have, 24,576 bytes, divided by PARTS. */
#include "../tests/outside/blocks.h"

#include <stdio.h>
#include <stdlib.h>
#include <string.h>

enum { COMMON_K = 5600, SLOW_K = GREATEST_K };

/* More records than any capture has room for: what is too much is cut. */
static bool full(const struct head *head)
{
    return head->marks.length >= CAPTURE_LIMIT / COUNTER_RECORD;
}

static void send_data_frame(struct head *head, unsigned status)
{
    uint8_t data[GREATEST_N];
    for (unsigned i = 0; i < head->n; i++)
        data[i] = (uint8_t)below(head->dice, 16);
    send_frame(head, status, data, check4(data, head->n));
}

static void send_clean_frames(struct head *head)
{
    send_edge(head);
    while (!full(head))
        send_data_frame(head, 0);
}

static void clean_1(struct head *head)
{
    head->n = 1;
    send_clean_frames(head);
}

static void clean_6(struct head *head)
{
    head->n = 6;
    send_clean_frames(head);
}

/* The slowest clock that there is: a counter wraps in every pulse. */
static void slow(struct head *head)
{
    head->k = SLOW_K;
    set_calibration(head, greatest_calibration(SLOW_K));
    send_clean_frames(head);
}

/* A log has no wraps, so that B's is empty. */
static void wraps(struct head *head)
{
    while (!full(head))
        add_mark(&head->marks, WRAP, 0);
}

static void breaks(struct head *head)
{
    while (!full(head))
        add_mark(&head->marks, LOST, 0);
}

static void noise(struct head *head)
{
    send_edge(head);
    while (!full(head))
        send_counts(head, between(head->dice, 1, 2 * head->c));
}

static struct message pick_message(struct head *head)
{
    unsigned number = (unsigned)below(head->dice, 1u << 21);
    unsigned configuration = number & 1, id = number >> 1 & 15, data = number >> 5;
    return head->counter ? short_message(id, data & 255, 0) : enhanced_message(configuration, id, data, 0);
}

/* A's messages are short ones, B's enhanced ones, one behind the other. */
static void messages(struct head *head)
{
    head->n = 1;
    send_edge(head);
    while (!full(head)) {
        struct message message = pick_message(head);
        for (unsigned at = 0; at < message.length; at++)
            send_data_frame(head, pair_status(&message, at));
    }
}

static void empty(struct head *head)
{
    (void)head;
}

static const struct kind {
    const char *name;
    void (*send)(struct head *head);
} kinds[] = {
    {"clean-1", clean_1}, {"clean-6", clean_6}, {"slow", slow},         {"wraps", wraps},
    {"breaks", breaks},   {"noise", noise},     {"messages", messages}, {"empty", empty},
};

static const struct kind *find_kind(const char *name)
{
    for (size_t i = 0; i < sizeof kinds / sizeof *kinds; i++)
        if (strcmp(kinds[i].name, name) == 0)
            return &kinds[i];
    return NULL;
}

static void make_channel(struct unit *unit, unsigned channel, const struct kind *kind, size_t limit)
{
    struct dice dice = {channel};
    struct head head = {.dice = &dice, .counter = channel == 0, .k = COMMON_K, .n = 3, .c = COMMON_K};
    kind->send(&head);
    set_channel(unit, channel, &head, limit);
    free_marks(&head.marks);
}

static size_t record_count(const struct unit *unit)
{
    return unit->capture[0].length / COUNTER_RECORD + unit->capture[1].length / LOG_RECORD;
}

static bool write_file(const char *path, const struct unit *unit)
{
    struct bytes file = {NULL, 0, 0};
    FILE *stream = fopen(path, "wb");
    put_unit(&file, unit);
    bool written = stream != NULL && fwrite(file.data, 1, file.length, stream) == file.length;
    free_bytes(&file);
    return stream != NULL && fclose(stream) == 0 && written;
}

int main(int argc, char **argv)
{
    const struct kind *kind = argc == 4 ? find_kind(argv[1]) : NULL;
    unsigned long parts = argc == 4 ? strtoul(argv[2], NULL, 10) : 0;
    /* a part is made of whole records of either capture */
    if (kind == NULL || parts == 0 || CAPTURE_LIMIT % (LOG_RECORD * parts) != 0) {
        fputs("usage: captures KIND PARTS FILE\n", stderr);
        return 2;
    }
    struct unit unit = {{0, 0}, {0, 0}, {0, 0}, {0, 0}, {{NULL, 0, 0}, {NULL, 0, 0}}};
    for (unsigned channel = 0; channel < 2; channel++)
        make_channel(&unit, channel, kind, CAPTURE_LIMIT / parts);
    bool written = write_file(argv[3], &unit);
    printf("%zu\n", record_count(&unit));
    free_unit(&unit);
    if (!written)
        perror(argv[3]);
    return written ? 0 : 2;
}
