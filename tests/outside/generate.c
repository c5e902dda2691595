/* generate SEED COUNT writes COUNT unit files to standard output, each as a length of four bytes, big-endian, and its bytes.
 * generate SEED COUNT names writes instead a line for each, which says what kind of file it is. A file depends on the
 * seed and on its number only, not on the files before it. */
#include "kinds.h"

#include <inttypes.h>
#include <stdio.h>
#include <stdlib.h>
#include <string.h>

/* What a file is made of, to be told to who asks. */
struct story {
    const char *channel[2];
    bool same_times;
    const char *damage[3];
    unsigned damages;
};

enum size { SHORT, MIDDLE, LONG, FULL };

static enum size pick_size(struct dice *dice)
{
    uint64_t number = below(dice, 100);
    return number < 78 ? SHORT : number < 95 ? MIDDLE : number < 99 ? LONG : FULL;
}

/* How many records a capture should have. Twice as many as fit fill it to the last byte. */
static size_t pick_budget(struct dice *dice, enum size size, bool counter)
{
    size_t most = CAPTURE_LIMIT / (counter ? COUNTER_RECORD : LOG_RECORD);
    switch (size) {
    case SHORT:
        return (size_t)between(dice, 1, most / 35);
    case MIDDLE:
        return (size_t)between(dice, 1, most / 10);
    case LONG:
        return (size_t)between(dice, 1, most);
    default:
        return 2 * most;
    }
}

static void make_channel(struct dice *dice, struct unit *unit, unsigned channel, enum size size, struct story *story)
{
    const struct channel_kind *kind = &channel_kinds[below(dice, channel_kind_count)];
    struct head head = {.dice = dice, .counter = channel == 0};
    head.budget = pick_budget(dice, size, head.counter);
    pick_settings(&head);
    kind->send(&head);
    set_channel(unit, channel, &head, CAPTURE_LIMIT);
    free_marks(&head.marks);
    story->channel[channel] = kind->name;
}

/* Both channels see edges at the same times, and often have the same settings. */
static void make_twins(struct dice *dice, struct unit *unit, enum size size, struct story *story)
{
    const struct channel_kind *kind = &channel_kinds[below(dice, channel_kind_count)];
    struct head head = {.dice = dice, .counter = true};
    head.budget = pick_budget(dice, size, false);
    pick_settings(&head);
    kind->send(&head);
    set_channel(unit, 0, &head, CAPTURE_LIMIT);
    if (one_in(dice, 4))
        head.n = (unsigned)between(dice, 1, GREATEST_N);
    set_channel(unit, 1, &head, CAPTURE_LIMIT);
    free_marks(&head.marks);
    story->channel[0] = story->channel[1] = kind->name;
    story->same_times = true;
}

static void make_captures(struct dice *dice, struct unit *unit, struct story *story)
{
    enum size size = pick_size(dice);
    if (one_in(dice, 12)) {
        make_twins(dice, unit, size, story);
        return;
    }
    make_channel(dice, unit, 0, size, story);
    make_channel(dice, unit, 1, size, story);
}

/* Mostly none; where two meet, the order in which refusals are tested shows. */
static unsigned pick_damages(struct dice *dice)
{
    if (!one_in(dice, 4))
        return 0;
    return one_in(dice, 3) ? 2 : 1;
}

static void harm_parts(struct dice *dice, struct unit *unit, struct story *story)
{
    for (unsigned left = pick_damages(dice); left > 0; left--) {
        const struct part_damage *damage = &part_damages[below(dice, part_damage_count)];
        damage->harm(dice, unit);
        story->damage[story->damages++] = damage->name;
    }
}

static void harm_bytes(struct dice *dice, struct bytes *file, struct story *story)
{
    if (!one_in(dice, 12))
        return;
    const struct byte_damage *damage = &byte_damages[below(dice, byte_damage_count)];
    damage->harm(dice, file);
    story->damage[story->damages++] = damage->name;
}

static void make_file(uint64_t seed, uint64_t number, struct bytes *file, struct story *story)
{
    struct dice seeds = {seed};
    struct dice dice = {draw(&seeds) + number * UINT64_C(0xD1342543DE82EF95)};
    struct unit unit = {{0, 0}, {0, 0}, {0, 0}, {0, 0}, {{NULL, 0, 0}, {NULL, 0, 0}}};
    dice.state = draw(&dice);
    make_captures(&dice, &unit, story);
    harm_parts(&dice, &unit, story);
    file->length = 0;
    put_unit(file, &unit);
    harm_bytes(&dice, file, story);
    free_unit(&unit);
}

static void write_framed(const struct bytes *file)
{
    struct bytes length = {NULL, 0, 0};
    put_number(&length, file->length, 4);
    fwrite(length.data, 1, length.length, stdout);
    fwrite(file->data, 1, file->length, stdout);
    free_bytes(&length);
}

static void tell(uint64_t number, const struct bytes *file, const struct story *story)
{
    printf("%" PRIu64 ": %zu bytes; A %s, B %s%s", number, file->length, story->channel[0], story->channel[1],
           story->same_times ? ", at the same times" : "");
    for (unsigned i = 0; i < story->damages; i++)
        printf("%s %s", i == 0 ? ";" : ",", story->damage[i]);
    putchar('\n');
}

static int usage(void)
{
    fputs("usage: generate SEED COUNT [names]\n", stderr);
    return 2;
}

static bool read_number(const char *text, uint64_t *number)
{
    char *end;
    *number = strtoull(text, &end, 10);
    return *text >= '0' && *text <= '9' && *end == '\0';
}

int main(int argc, char **argv)
{
    uint64_t seed, count;
    bool names = argc == 4 && strcmp(argv[3], "names") == 0;
    if (!(argc == 3 || names) || !read_number(argv[1], &seed) || !read_number(argv[2], &count))
        return usage();
    struct bytes file = {NULL, 0, 0};
    for (uint64_t number = 1; number <= count; number++) {
        struct story story = {{NULL, NULL}, false, {NULL, NULL, NULL}, 0};
        make_file(seed, number, &file, &story);
        if (names)
            tell(number, &file, &story);
        else
            write_framed(&file);
    }
    free_bytes(&file);
    return fflush(stdout) == 0 && !ferror(stdout) ? 0 : 2;
}
