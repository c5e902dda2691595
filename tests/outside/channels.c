/* What heads send: clean frames, and everything that can go wrong with edges. */
#include "kinds.h"

/* The records that the capture of a head has so far; a counter writes the wraps of the time too. */
static size_t records(const struct head *head)
{
    size_t wraps = head->counter ? (size_t)(head_time(head) >> 16) : 0;
    return head->marks.length + wraps;
}

static bool full(const struct head *head)
{
    return records(head) >= head->budget;
}

static uint32_t pick_k(struct dice *dice)
{
    switch (below(dice, 8)) {
    case 0:
        return LEAST_K;
    case 1:
        return GREATEST_K;
    case 2:
        return (uint32_t)between(dice, LEAST_K, LEAST_K + 60);
    case 3:
        return (uint32_t)between(dice, GREATEST_K - 60, GREATEST_K);
    case 4:
        return (uint32_t)between(dice, LEAST_K, GREATEST_K);
    case 5:
        return (uint32_t)between(dice, LEAST_K, 70000);
    default:
        return (uint32_t)between(dice, LEAST_K, 6000);
    }
}

/* A calibration pulse that the window takes, often at one of its ends. */
static uint64_t pick_inside(struct head *head)
{
    uint64_t least = least_calibration(head->k), greatest = greatest_calibration(head->k);
    switch (below(head->dice, 5)) {
    case 0:
        return least;
    case 1:
        return greatest;
    case 2:
        return head->k;
    default:
        return between(head->dice, least, greatest);
    }
}

/* A calibration pulse at an end of the window or just outside it. */
static uint64_t pick_at_end(struct head *head)
{
    uint64_t end = one_in(head->dice, 2) ? least_calibration(head->k) : greatest_calibration(head->k);
    return end + below(head->dice, 5) - 2;
}

void pick_settings(struct head *head)
{
    struct dice *dice = head->dice;
    head->k = pick_k(dice);
    head->n = (unsigned)between(dice, 1, GREATEST_N);
    head->c = pick_inside(head);
    if (one_in(dice, 4))
        head->origin = 0;
    else if (head->counter)
        head->origin = below(dice, one_in(dice, 4) ? 20 * 65536 : 65536);
    else
        head->origin = below(dice, one_in(dice, 4) ? TIME_LIMIT : 1000000);
    head->ticks = 0;
}

/* The edge that the first pulse is measured from. */
static void open_channel(struct head *head)
{
    head->jitter = 0;
    if (head->marks.length == 0)
        send_edge(head);
}

/* The longest and the shortest nibble are as frequent as all others together. */
static uint8_t pick_nibble(struct dice *dice)
{
    switch (below(dice, 4)) {
    case 0:
        return 0;
    case 1:
        return 15;
    default:
        return (uint8_t)below(dice, 16);
    }
}

static void pick_data(struct head *head, uint8_t *data)
{
    for (unsigned i = 0; i < head->n; i++)
        data[i] = pick_nibble(head->dice);
}

static void send_status(struct head *head, unsigned status)
{
    uint8_t data[GREATEST_N];
    pick_data(head, data);
    send_frame(head, status, data, check4(data, head->n));
}

static void send_good_frame(struct head *head)
{
    send_status(head, pick_nibble(head->dice));
}

static void send_wrong_frame(struct head *head)
{
    uint8_t data[GREATEST_N];
    pick_data(head, data);
    unsigned wrong = (unsigned)between(head->dice, 1, 15);
    unsigned status = pick_nibble(head->dice);
    send_frame(head, status, data, check4(data, head->n) ^ wrong);
}

static void clean_frames(struct head *head)
{
    open_channel(head);
    while (!full(head))
        send_good_frame(head);
}

static void wrong_checks(struct head *head)
{
    open_channel(head);
    while (!full(head)) {
        if (one_in(head->dice, 2))
            send_wrong_frame(head);
        else
            send_good_frame(head);
    }
}

static void window_ends(struct head *head)
{
    open_channel(head);
    while (!full(head)) {
        set_calibration(head, pick_at_end(head));
        send_good_frame(head);
    }
}

static void drifting_clock(struct head *head)
{
    open_channel(head);
    while (!full(head)) {
        set_calibration(head, pick_inside(head));
        send_good_frame(head);
    }
}

/* Two edges that are off by so much make an interval that is off by less than a 166th of the calibration pulse. */
static void small_jitter(struct head *head)
{
    open_channel(head);
    head->jitter = (head->c - 1) / 166 / 2;
    while (!full(head))
        send_good_frame(head);
}

static void great_jitter(struct head *head)
{
    open_channel(head);
    while (!full(head)) {
        head->jitter = between(head->dice, 1, head->c / (one_in(head->dice, 4) ? 10 : 56));
        send_good_frame(head);
    }
}

/* The fewest counts that are so many ticks under a calibration pulse of c. */
static uint64_t fewest_counts(uint64_t ticks, uint64_t c)
{
    return ((2 * ticks - 1) * c + 111) / 112;
}

/* A pulse as short or as long as its ticks allow, and now and then a count shorter or longer. */
static void send_rounded(struct head *head, unsigned ticks)
{
    struct dice *dice = head->dice;
    uint64_t fewest = fewest_counts(ticks, head->c), most = fewest_counts(ticks + 1, head->c) - 1;
    uint64_t counts = one_in(dice, 2) ? fewest : most;
    if (one_in(dice, 12))
        counts = one_in(dice, 2) ? fewest - 1 : most + 1;
    send_counts(head, counts);
}

static void rounding_ends(struct head *head)
{
    uint8_t data[GREATEST_N];
    open_channel(head);
    while (!full(head)) {
        pick_data(head, data);
        send_counts(head, head->c);
        send_rounded(head, 12u + pick_nibble(head->dice));
        for (unsigned i = 0; i < head->n; i++)
            send_rounded(head, 12u + data[i]);
        send_rounded(head, 12 + check4(data, head->n));
    }
}

static struct message pick_short(struct dice *dice, unsigned wrong)
{
    unsigned id = (unsigned)below(dice, 16), data = (unsigned)below(dice, 256);
    return short_message(id, data, wrong & 15);
}

static struct message pick_enhanced(struct dice *dice, unsigned wrong)
{
    unsigned configuration = (unsigned)below(dice, 2);
    unsigned id = (unsigned)below(dice, configuration ? 16 : 256);
    unsigned data = (unsigned)below(dice, configuration ? 65536 : 4096);
    return enhanced_message(configuration, id, data, wrong & 63);
}

/* A message of the format that the channel has, or now and then of the other. */
static struct message pick_message(struct head *head, unsigned wrong)
{
    bool own = !one_in(head->dice, 10);
    return own == head->counter ? pick_short(head->dice, wrong) : pick_enhanced(head->dice, wrong);
}

/* The pairs of a message from one to another, each in a frame. The low bits of the status are free. */
static void send_message(struct head *head, const struct message *message, unsigned from, unsigned to)
{
    for (unsigned at = from; at < to && !full(head); at++)
        send_status(head, pair_status(message, at) + (unsigned)below(head->dice, 4));
}

/* Messages are long: that some fit into a short file, it needs more room, frames of few nibbles and no slow clock. */
static void prepare_for_messages(struct head *head)
{
    if (head->marks.length > 0)
        return;
    head->budget += 100;
    if (head->budget > 1000)
        return;
    head->n = (unsigned)between(head->dice, 1, 2);
    if (head->counter && head->k > 20000)
        head->k = LEAST_K + head->k % 1000;
    set_calibration(head, pick_inside(head));
}

static void joined_messages(struct head *head)
{
    prepare_for_messages(head);
    open_channel(head);
    while (!full(head)) {
        struct message message = pick_message(head, 0);
        send_message(head, &message, 0, message.length);
    }
}

static void flip_pair(struct dice *dice, struct message *message)
{
    unsigned at = (unsigned)below(dice, message->length);
    uint8_t *bits = one_in(dice, 2) ? message->high : message->low;
    bits[at] ^= 1;
}

/* A message that is right, has a wrong check or a wrong bit, or lacks its first or its last pairs. */
static void send_broken_message(struct head *head)
{
    struct dice *dice = head->dice;
    unsigned wrong = one_in(dice, 3) ? (unsigned)between(dice, 1, 63) : 0;
    struct message message = pick_message(head, wrong);
    unsigned from = one_in(dice, 5) ? (unsigned)below(dice, message.length) : 0;
    unsigned to = one_in(dice, 5) ? (unsigned)below(dice, message.length) : message.length;
    if (one_in(dice, 6))
        flip_pair(dice, &message);
    send_message(head, &message, from, to);
}

static void broken_messages(struct head *head)
{
    prepare_for_messages(head);
    open_channel(head);
    while (!full(head)) {
        send_broken_message(head);
        if (one_in(head->dice, 4))
            send_status(head, (unsigned)below(head->dice, 4));
        if (one_in(head->dice, 8))
            send_wrong_frame(head);
        if (one_in(head->dice, 10))
            add_mark(&head->marks, LOST, 0);
    }
}

/* A fault of the pulses between two frames: 201, 202, 301, 302, 303 or 401. The next frame can be received again. */
static void send_fault(struct head *head)
{
    switch (below(head->dice, 6)) {
    case 0:
        add_mark(&head->marks, LOST, 0);
        send_ticks(head, 20);
        break;
    case 1:
        send_counts(head, LONGEST_INTERVAL + between(head->dice, 1, 9));
        break;
    case 2:
        send_ticks(head, 30);
        break;
    case 3:
        send_ticks(head, CALIBRATION_TICKS);
        send_ticks(head, 11);
        break;
    case 4:
        send_ticks(head, CALIBRATION_TICKS);
        send_ticks(head, 28);
        break;
    default:
        send_wrong_frame(head);
    }
}

/* Messages with a fault between two of their frames: they would be whole if it did not drop the pairs before it. */
static void interrupted_messages(struct head *head)
{
    prepare_for_messages(head);
    open_channel(head);
    while (!full(head)) {
        struct message message = pick_message(head, 0);
        unsigned at = (unsigned)between(head->dice, 1, message.length - 1);
        send_message(head, &message, 0, at);
        send_fault(head);
        send_message(head, &message, at, message.length);
        if (one_in(head->dice, 2))
            send_message(head, &message, 0, message.length);
    }
}

/* Puts an edge some counts earlier or later than it was. */
static void move_edge(struct head *head, size_t at, uint64_t counts)
{
    struct mark *mark = &head->marks.items[at];
    if (one_in(head->dice, 2))
        mark->time += counts;
    else
        mark->time -= counts < mark->time ? counts : mark->time;
}

/* An edge between two nibbles of each frame is moved by up to a tick, often by all of it. */
static void moved_edges(struct head *head)
{
    open_channel(head);
    while (!full(head)) {
        size_t first = head->marks.length;
        uint64_t most = head->c / CALIBRATION_TICKS;
        send_good_frame(head);
        size_t at = first + (size_t)between(head->dice, 1, head->n + 1);
        move_edge(head, at, one_in(head->dice, 2) ? most : below(head->dice, most + 1));
    }
}

/* Any edge of a frame, moved by more than it may. */
static void far_moved_edges(struct head *head)
{
    open_channel(head);
    while (!full(head)) {
        size_t first = head->marks.length;
        send_good_frame(head);
        size_t at = (size_t)between(head->dice, first, head->marks.length - 1);
        move_edge(head, at, between(head->dice, head->c / CALIBRATION_TICKS + 1, head->c / 14));
    }
}

/* How many of the marks from one on are to be disturbed: one of about thirty, but one at least. */
static size_t pick_disturbances(struct head *head, size_t from)
{
    size_t most = (head->marks.length - from) / 15;
    return 1 + (size_t)below(head->dice, most + 1);
}

static size_t pick_mark(struct head *head, size_t from)
{
    return (size_t)between(head->dice, from, head->marks.length - 1);
}

/* Frames, and disturbances at random edges of theirs. */
static void disturbed_frames(struct head *head, void (*disturb)(struct head *head, size_t at))
{
    size_t from = head->marks.length;
    send_edge(head);
    clean_frames(head);
    for (size_t left = pick_disturbances(head, from); left > 0; left--)
        disturb(head, pick_mark(head, from));
}

static void lose_edge(struct head *head, size_t at)
{
    if (one_in(head->dice, 2))
        head->marks.items[at].what = LOST;
    else
        insert_mark(&head->marks, at, LOST, 0);
}

static void lost_edges(struct head *head)
{
    disturbed_frames(head, lose_edge);
}

/* An edge that was not captured and left no note, or one that was not sent. */
static void miss_or_invent_edge(struct head *head, size_t at)
{
    uint64_t late = between(head->dice, 1, head->c);
    if (one_in(head->dice, 2) && head->marks.length > 1)
        drop_mark(&head->marks, at);
    else
        insert_mark(&head->marks, at + 1, EDGE, head->marks.items[at].time + late);
}

static void missed_edges(struct head *head)
{
    disturbed_frames(head, miss_or_invent_edge);
}

static void repeat_or_step_back(struct head *head, size_t at)
{
    uint64_t time = head->marks.items[at].time;
    uint64_t back = one_in(head->dice, 2) ? below(head->dice, 3) : below(head->dice, 2 * head->c);
    insert_mark(&head->marks, at + 1, EDGE, back < time ? time - back : 0);
}

static void backward_edges(struct head *head)
{
    disturbed_frames(head, repeat_or_step_back);
}

/* Around the longest interval that is no fault of its own; one that is right but for 2^24 or 2^32 counts more; or any beyond. A
 * counter writes 256 wraps for each. */
static uint64_t pick_long_interval(struct head *head)
{
    switch (below(head->dice, 6)) {
    case 0:
        return between(head->dice, LONGEST_INTERVAL, head->counter ? 20000000 : UINT64_C(1) << 34);
    case 1:
        return (UINT64_C(1) << (head->counter ? 24 : 32)) + head->c;
    default:
        return LONGEST_INTERVAL + below(head->dice, 7) - 3;
    }
}

static void send_some_frames(struct head *head)
{
    for (uint64_t left = below(head->dice, 3); left > 0; left--)
        send_good_frame(head);
}

/* The first pulses of a frame, one at least. */
static void send_cut_frame(struct head *head)
{
    size_t kept = head->marks.length + (size_t)between(head->dice, 1, head->n + 3);
    send_good_frame(head);
    head->marks.length = kept;
    head->origin = head->marks.items[kept - 1].time;
    head->ticks = 0;
}

static void long_intervals(struct head *head)
{
    open_channel(head);
    head->budget += head->counter ? 300 : 0;
    while (!full(head)) {
        send_some_frames(head);
        send_cut_frame(head);
        send_counts(head, pick_long_interval(head));
        send_some_frames(head);
    }
}

/* Pulses that are not where they belong: frames cut by the next calibration pulse, nibbles too many, a pause. */
static void cut_frames(struct head *head)
{
    open_channel(head);
    while (!full(head)) {
        send_some_frames(head);
        send_cut_frame(head);
        if (one_in(head->dice, 3))
            send_ticks(head, between(head->dice, 1, 80));
    }
}

/* As slow as the settings and the window allow, so that a counter wraps within most pulses. */
static void slow_clock(struct head *head)
{
    if (head->marks.length == 0)
        head->k = (uint32_t)between(head->dice, GREATEST_K - 5, GREATEST_K);
    set_calibration(head, greatest_calibration(head->k) - below(head->dice, 3));
    head->budget += head->counter ? 300 : 0;
    clean_frames(head);
}

/* Frames up to the last time that a log has room for. */
static void last_times(struct head *head)
{
    uint64_t left = between(head->dice, 1, head->c * 30);
    open_channel(head);
    if (!head->counter && head_time(head) + left < TIME_LIMIT)
        pass_counts(head, TIME_LIMIT - left - head_time(head));
    send_edge(head);
    clean_frames(head);
    if (head->counter)
        return;
    while (head->marks.items[head->marks.length - 1].time >= TIME_LIMIT - 1)
        if (--head->marks.length == 0)
            break;
    add_mark(&head->marks, EDGE, TIME_LIMIT - 1);
    if (one_in(head->dice, 4))
        add_mark(&head->marks, one_in(head->dice, 2) ? LOST : EDGE, TIME_LIMIT - 1);
}

/* In a log this leaves nothing. */
static void wraps_only(struct head *head)
{
    size_t left = (size_t)between(head->dice, 1, head->budget);
    while (left-- > 0)
        add_mark(&head->marks, WRAP, 0);
}

/* Lost edges, or edges that are never later than the first. */
static void breaks_only(struct head *head)
{
    size_t left = (size_t)between(head->dice, 1, head->budget);
    bool lost = one_in(head->dice, 2);
    uint64_t first = head_time(head);
    while (left-- > 0) {
        uint64_t back = below(head->dice, 4);
        add_mark(&head->marks, lost ? LOST : EDGE, back < first ? first - back : 0);
    }
}

/* Distances from one count to twice the calibration pulse. */
static void noise(struct head *head)
{
    open_channel(head);
    while (!full(head))
        send_counts(head, between(head->dice, 1, 2 * head->c));
}

/* Pulses of as many ticks as calibration pulses and nibbles have, and nearby, in no order. */
static void scrambled_pulses(struct head *head)
{
    open_channel(head);
    while (!full(head)) {
        if (one_in(head->dice, 4))
            send_ticks(head, between(head->dice, 43, 69));
        else
            send_ticks(head, between(head->dice, 10, 29));
    }
}

/* Some time at which a counter may capture an edge after so many wraps, or any time of a log. */
static uint64_t pick_time(struct head *head, uint64_t wraps)
{
    if (head->counter)
        return (wraps << 16) + below(head->dice, 65536);
    return below(head->dice, one_in(head->dice, 2) ? TIME_LIMIT : 100000);
}

static void random_records(struct head *head)
{
    uint64_t wraps = 0;
    size_t left = (size_t)between(head->dice, 1, head->budget);
    while (left-- > 0) {
        uint64_t time = pick_time(head, wraps);
        enum what what = (enum what[]){EDGE, EDGE, EDGE, WRAP, LOST}[below(head->dice, 5)];
        wraps += what == WRAP;
        add_mark(&head->marks, what, time);
    }
}

static void nothing(struct head *head)
{
    (void)head;
}

/* Pieces of other kinds, one behind the other. */
static void mixture(struct head *head)
{
    static void (*const pieces[])(struct head *) = {
        clean_frames, wrong_checks,   window_ends,    drifting_clock, small_jitter, great_jitter,   rounding_ends,    moved_edges,
        lost_edges,   missed_edges,   backward_edges, cut_frames,     noise,        broken_messages, scrambled_pulses, far_moved_edges,
    };
    size_t budget = head->budget;
    while (records(head) < budget) {
        head->budget = records(head) + (size_t)between(head->dice, 5, 60);
        pieces[below(head->dice, sizeof pieces / sizeof *pieces)](head);
        if (one_in(head->dice, 3))
            pass_counts(head, below(head->dice, 2 * head->c));
        if (one_in(head->dice, 3))
            send_edge(head);
    }
    head->budget = budget;
}

const struct channel_kind channel_kinds[] = {
    {"clean frames", clean_frames},
    {"wrong checks", wrong_checks},
    {"ends of the window", window_ends},
    {"drifting clock", drifting_clock},
    {"small jitter", small_jitter},
    {"great jitter", great_jitter},
    {"ends of the rounding", rounding_ends},
    {"joined messages", joined_messages},
    {"broken messages", broken_messages},
    {"broken messages", broken_messages},
    {"interrupted messages", interrupted_messages},
    {"interrupted messages", interrupted_messages},
    {"moved edges", moved_edges},
    {"far moved edges", far_moved_edges},
    {"lost edges", lost_edges},
    {"missed edges", missed_edges},
    {"backward edges", backward_edges},
    {"long intervals", long_intervals},
    {"cut frames", cut_frames},
    {"slow clock", slow_clock},
    {"last times", last_times},
    {"wraps only", wraps_only},
    {"breaks only", breaks_only},
    {"noise", noise},
    {"scrambled pulses", scrambled_pulses},
    {"random records", random_records},
    {"nothing", nothing},
    {"mixture", mixture},
    {"mixture", mixture},
    {"mixture", mixture},
};
const unsigned channel_kind_count = sizeof channel_kinds / sizeof *channel_kinds;
