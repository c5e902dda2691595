/* The kinds of channels and of damage that generate.c draws from. */
#ifndef KINDS_H
#define KINDS_H

#include "blocks.h"

/* What a head sends. It goes on from where the head stands, and stops soon after the head's budget is used. */
struct channel_kind {
    const char *name;
    void (*send)(struct head *head);
};
extern const struct channel_kind channel_kinds[];
extern const unsigned channel_kind_count;
/* K, N, the calibration pulse and the time at which a head begins. */
void pick_settings(struct head *head);

/* What is done to the parts of a file before it is written. */
struct part_damage {
    const char *name;
    void (*harm)(struct dice *dice, struct unit *unit);
};
extern const struct part_damage part_damages[];
extern const unsigned part_damage_count;

/* What is done to the bytes of a file. */
struct byte_damage {
    const char *name;
    void (*harm)(struct dice *dice, struct bytes *file);
};
extern const struct byte_damage byte_damages[];
extern const unsigned byte_damage_count;

#endif
