/* What the calls answer through the header. `calls GROUP` says what differs, and exits with 1 if anything does:
   refusals, each number from a smallest call, which changes nothing, and the order of the checks; limits, at them and past
   them; empty, slices without entries; words, the journal of document 01's one fix, the predecessors that rows name, and
   every length of a record; rows, the predecessor of the next fix beside the rows read back, and rows as structures;
   windows, which relations are open at a minute, by every call that asks, and the minutes of rows; replay, journals that
   were fed, and every one with a bit changed, beside each row read back and fed again. */
#include "box.h"

#include <math.h>
#include <stddef.h>
#include <stdio.h>
#include <string.h>

static int failures;

/* The minute of fixes and of questions about routes. */
static uint32_t minute;

static void expect(const char *what, uint32_t answer, uint32_t expected) {
    if (answer == expected) return;
    printf("%s, minute %u: %u, not %u\n", what, (unsigned)minute, (unsigned)answer, (unsigned)expected);
    failures++;
}

/* ---- Document 01's network, with room for one element and one relation too many. It has no windows before `shut` is called. */

enum { MOST_ELEMENTS = BOX_MAX_ELEMENTS + 1, MOST_RELATIONS = BOX_MAX_RELATIONS + 1 };

static double lengths[MOST_ELEMENTS], headings[4 * MOST_ELEMENTS], beta, scale;
static uint32_t flags[MOST_ELEMENTS], from[MOST_RELATIONS], to[MOST_RELATIONS], from_side[MOST_RELATIONS];
static uint32_t to_side[MOST_RELATIONS], ways[MOST_RELATIONS], window_counts[MOST_RELATIONS];
static uint32_t window_firsts[BOX_MAX_WINDOWS * MOST_RELATIONS], window_lasts[BOX_MAX_WINDOWS * MOST_RELATIONS];
static struct box_network network;

/* All that the calls may write. */
enum { ROOM = 8,
    WORDS = 1 + BOX_RECORD_WORDS(BOX_MAX_CANDIDATES, 0) + BOX_RECORD_WORDS(BOX_MAX_CANDIDATES, BOX_MAX_CANDIDATES) };

static struct lent {
    uint32_t journal[WORDS], numbers[5][BOX_MAX_STEPS], decisions[6 * ROOM], consistent, predecessor, minute, differing;
    double floats[4][BOX_MAX_STEPS], value;
    struct box_segment segments[ROOM];
    struct box_row row;
    size_t count, second;
} lent;

/* A fix. */
static uint32_t elements[BOX_MAX_CANDIDATES + 1], near_flags[BOX_MAX_CANDIDATES + 1];
static double intrinsics[BOX_MAX_CANDIDATES + 1], raw_logs[BOX_MAX_CANDIDATES + 1], distances[BOX_MAX_STEPS];

static void start(void) {
    static const double document_lengths[3] = {100, 50, 100};
    memset(headings, 0, sizeof headings);
    for (uint32_t i = 0; i < MOST_ELEMENTS; i++) lengths[i] = i < 3 ? document_lengths[i] : 0, flags[i] = 1;
    for (uint32_t i = 0; i < MOST_RELATIONS; i++) {
        from[i] = i % BOX_MAX_ELEMENTS, to[i] = from[i] + 1, from_side[i] = 1, to_side[i] = 0, ways[i] = 1;
    }
    memset(window_counts, 0, sizeof window_counts);
    memset(window_firsts, 0, sizeof window_firsts), memset(window_lasts, 0, sizeof window_lasts);
    network = (struct box_network){.elements = 3, .lengths = lengths, .headings = headings, .flags = flags, .relations = 2,
        .from = from, .to = to, .from_side = from_side, .to_side = to_side, .forward = ways, .backward = ways};
    beta = 10, scale = 30, minute = 0;
    memset(&lent, 0xEE, sizeof lent);
    memset(lent.segments, 0, sizeof lent.segments);
    box_open(lent.journal, WORDS);
    for (int i = 0; i <= BOX_MAX_CANDIDATES; i++) elements[i] = 0, near_flags[i] = 1, intrinsics[i] = 0.5, raw_logs[i] = -1;
    memset(distances, 0, sizeof distances);
}

/* One more window of a relation. The entries past its count, from 0 to 0, would be refused. */
static void shut(uint32_t relation, uint32_t first, uint32_t last) {
    uint32_t at = BOX_MAX_WINDOWS * relation + window_counts[relation]++;
    window_firsts[at] = first, window_lasts[at] = last;
    network.window_counts = window_counts, network.window_firsts = window_firsts, network.window_lasts = window_lasts;
}

static uint32_t check(void) { return box_check_network(BOX_NETWORK(network)); }

/* The same with so many entries of the windows. */
static uint32_t check_lists(size_t counts, size_t firsts, size_t lasts) {
    return box_check_network(lengths, 3, headings, 12, flags, 3, from, 2, to, 2, from_side, 2, to_side, 2, ways, 2, ways, 2,
        window_counts, counts, window_firsts, firsts, window_lasts, lasts);
}

static uint32_t feed_into(size_t words, size_t candidates, size_t pairs) {
    return box_feed(BOX_NETWORK(network), beta, scale, lent.journal, words, minute, elements, candidates, intrinsics,
        candidates, near_flags, candidates, raw_logs, candidates, distances, pairs);
}

static uint32_t feed(size_t candidates, size_t pairs) { return feed_into(WORDS, candidates, pairs); }

static uint32_t predecessor(void) { return box_predecessor(lent.journal, WORDS, &lent.predecessor, &lent.count); }

static uint32_t strike(uint32_t rows) { return box_strike(lent.journal, WORDS, rows); }

static uint32_t close_into(size_t room) {
    return box_close(lent.journal, WORDS, lent.numbers[0], room, lent.numbers[1], room, &lent.value, &lent.count);
}

static uint32_t read_row(uint32_t row, size_t room) {
    return box_read_row(lent.journal, WORDS, row, lent.numbers[0], room, lent.floats[0], room, lent.numbers[1], room,
        lent.floats[1], room, lent.numbers[2], room, lent.floats[2], room, lent.floats[3], room, &lent.count, &lent.second,
        &lent.minute);
}

static uint32_t row(uint32_t number) { return box_row(lent.journal, WORDS, number, &lent.row); }

static uint32_t list_steps(uint32_t row, size_t room) {
    return box_list_steps(BOX_NETWORK(network), beta, scale, lent.journal, WORDS, row, lent.numbers[0], room,
        lent.numbers[1], room, lent.numbers[2], room, lent.numbers[3], room, lent.floats[0], room, &lent.count);
}

static uint32_t replay_words(size_t words) {
    return box_replay(BOX_NETWORK(network), beta, scale, lent.journal, words, &lent.differing);
}

static uint32_t replay(void) { return replay_words(WORDS); }

static uint32_t build_into(size_t room) {
    return box_build_path(BOX_NETWORK(network), lent.journal, WORDS, lent.segments, room, &lent.count);
}

static uint32_t collapse(size_t segments, size_t words) {
    return box_remove_oscillations(lent.segments, segments, lent.decisions, words, &lent.count, &lent.second);
}

static uint32_t distance(uint32_t element, uint32_t side) {
    return box_shortest_path_distance(BOX_NETWORK(network), minute, 0, 0, element, side, &lent.value);
}

static uint32_t route_into(uint32_t element, size_t room) {
    return box_shortest_path_route(BOX_NETWORK(network), minute, 0, 0, element, 1, lent.numbers[0], room, &lent.value,
        &lent.count);
}

static uint32_t triple_of(uint32_t a, uint32_t b, uint32_t c) {
    return box_triple_is_consistent(BOX_NETWORK(network), minute, a, b, c, &lent.consistent);
}

static uint32_t triple(void) { return triple_of(0, 1, 2); }

/* ---- refusals */

/* After a start and what spoils it, the call answers this number, and all that was lent is as it was. */
#define REFUSED(spoilt, call, number) \
    do { \
        struct lent before; \
        start(), spoilt, memcpy(&before, &lent, sizeof lent); \
        expect(#call " after " #spoilt, call, number); \
        expect(#call " changes memory", memcmp(&before, &lent, sizeof lent) != 0, 0); \
    } while (0)

#define AS_IT_IS (void)0

/* By every call that takes a network. */
#define REFUSED_NETWORK(spoilt, number) \
    do { \
        REFUSED(spoilt, check(), number); \
        REFUSED(spoilt, distance(2, 1), number); \
        REFUSED(spoilt, route_into(2, 8), number); \
        REFUSED(spoilt, triple(), number); \
        REFUSED(spoilt, feed(1, 0), number); \
        REFUSED(spoilt, list_steps(0, 8), number); \
        REFUSED(spoilt, replay(), number); \
        REFUSED(spoilt, build_into(ROOM), number); \
    } while (0)

/* Padding that is not zero in every segment, and these bits as the start of one of them. */
static void mark(size_t segment, uint64_t bits) {
    const size_t padding = sizeof(uint32_t), after = offsetof(struct box_segment, start_intrinsic);
    for (size_t i = 0; i < ROOM; i++) memset((char *)&lent.segments[i] + padding, 0xA5, after - padding);
    memcpy(&lent.segments[segment].start_intrinsic, &bits, sizeof bits);
}

/* A refused collapse stores nothing: a store into these lists would end the program. */
static void constant_lists(void) {
    static const struct box_segment wrong[3] = {{0, 0, 1, 0, 4}, {1, 0, 1, 5, 6}, {0, NAN, 1, 7, 9}};
    static const struct box_segment sound[3] = {{0, 0, 1, 0, 4}, {1, 0, 1, 5, 6}, {0, 0, 1, 7, 9}};
    start();
    expect("a constant list", box_remove_oscillations((struct box_segment *)wrong, 3, lent.decisions, 18, &lent.count,
        &lent.second), BOX_REFUSED_SEGMENT);
    expect("a constant list", box_remove_oscillations((struct box_segment *)sound, 3, lent.decisions, 17, &lent.count,
        &lent.second), BOX_REFUSED_BUFFER);
}

/* Lists of windows that do not fit two relations, and those that do. */
static void window_lists(void) {
    static const size_t wrong[][3] = {{0, 8, 8}, {0, 0, 1}, {0, 1, 0}, {2, 0, 0}, {2, 7, 8}, {2, 8, 7}, {2, 9, 8}, {2, 8, 9},
        {2, 2, 2}, {1, 4, 4}, {1, 8, 8}, {3, 12, 12}, {4096, 8, 8}};
    for (size_t i = 0; i < sizeof wrong / sizeof wrong[0]; i++) {
        REFUSED(shut(1, 5, 9), check_lists(wrong[i][0], wrong[i][1], wrong[i][2]), BOX_REFUSED_COUNTS);
    }
    start(), shut(1, 5, 9);
    expect("lists of windows", check_lists(2, 8, 8), BOX_DONE);
    expect("three empty lists", check_lists(0, 0, 0), BOX_DONE);
}

/* What a feed and a question about a row are asked with. */
struct asked {
    size_t words, candidates, pairs;
    uint32_t row;
};

/* What the calls answer while some faults are left, with no room for lists; nothing is changed. Replaying looks at what listing
   does, but for the row and the room for a list. */
static void answers(const struct asked *asked, uint32_t fed, uint32_t listed, uint32_t built, uint32_t routed) {
    struct lent before;
    memcpy(&before, &lent, sizeof lent);
    expect("feed in order", feed_into(asked->words, asked->candidates, asked->pairs), fed);
    expect("steps in order", list_steps(asked->row, 0), listed);
    expect("replay in order", replay(), listed == 13 || listed == 15 ? BOX_DONE : listed);
    expect("build in order", build_into(0), built);
    expect("route in order", route_into(1, 0), routed);
    expect("a refused call changes memory", memcmp(&before, &lent, sizeof lent) != 0, 0);
}

/* All faults at once, then mended one by one in the order of the checks, behind two rows on element 2 at minute 5. */
static void order_of_checks(void) {
    struct asked asked = {0, BOX_MAX_CANDIDATES + 1, 2, 2};
    start(), elements[0] = 2, minute = 5;
    expect("two rows", (feed(1, 0), feed(1, 1)), BOX_DONE);
    const uint32_t used = lent.journal[0];
    network.elements = MOST_ELEMENTS, lengths[1] = -1, headings[5] = 360, to_side[1] = 2, to[1] = 1, shut(1, 9, 9), scale = 0;
    asked.words = used & 0xFFFFFFF, lent.journal[0] = 0, minute = 4;
    answers(&asked, 1, 1, 1, 1), network.elements = 2; /* which element 2 is not among */
    answers(&asked, 2, 2, 2, 2), lengths[1] = 50;
    answers(&asked, 3, 3, 3, 3), headings[5] = 0;
    answers(&asked, 4, 4, 4, 4), to_side[1] = 0;
    answers(&asked, 5, 5, 5, 5), to[1] = 2;
    answers(&asked, 16, 16, 16, 16), window_lasts[BOX_MAX_WINDOWS] = 10;
    answers(&asked, 6, 6, 7, 15), scale = 30;
    answers(&asked, 7, 7, 7, 15), lent.journal[0] = used;
    answers(&asked, 8, 9, 9, 15), asked.candidates = 1;
    answers(&asked, 9, 9, 9, 15), network.elements = 3;
    answers(&asked, 10, 13, 15, 15), asked.pairs = 1;
    answers(&asked, 17, 13, 15, 15), minute = 5, asked.row = 1;
    answers(&asked, 12, 15, 15, 15);
    expect("a feed without faults", feed(asked.candidates, asked.pairs), BOX_DONE);
}

/* Words that are no journal: by every call that takes one. */
#define REFUSED_JOURNAL(spoilt) \
    do { \
        REFUSED(spoilt, feed(1, 0), BOX_REFUSED_JOURNAL); \
        REFUSED(spoilt, predecessor(), BOX_REFUSED_JOURNAL); \
        REFUSED(spoilt, strike(0), BOX_REFUSED_JOURNAL); \
        REFUSED(spoilt, close_into(8), BOX_REFUSED_JOURNAL); \
        REFUSED(spoilt, read_row(0, 8), BOX_REFUSED_JOURNAL); \
        REFUSED(spoilt, row(0), BOX_REFUSED_JOURNAL); \
        REFUSED(spoilt, list_steps(0, 8), BOX_REFUSED_JOURNAL); \
        REFUSED(spoilt, replay(), BOX_REFUSED_JOURNAL); \
        REFUSED(spoilt, build_into(ROOM), BOX_REFUSED_JOURNAL); \
    } while (0)

/* Document 01's one fix as it was written before rows had minutes. */
static void write_former(void) {
    static const uint32_t former[12] = {
        0x5000000C, 0x10000001, 0x70000000, 0x2000FC00, 0x3FE00000, 0, 0xBFF00000, 0, 0xBFF00000, 0, 0x30000000, 0x4000000B,
    };
    memcpy(lent.journal, former, sizeof former);
}

static void journals(void) {
    enum { SECOND = 1 + BOX_RECORD_WORDS(1, 0) };
    REFUSED_JOURNAL(lent.journal[0] = 0);
    REFUSED_JOURNAL(write_former());
    /* a wrong predecessor: of a row without one, and of an empty row */
    REFUSED((feed(1, 0), lent.journal[2]++), feed(1, 1), BOX_REFUSED_JOURNAL);
    REFUSED((feed(1, 0), feed(0, 0), lent.journal[SECOND + 1]++), close_into(8), BOX_REFUSED_JOURNAL);
    REFUSED((feed(1, 0), feed(0, 0), lent.journal[SECOND + 1]--), strike(0), BOX_REFUSED_JOURNAL);
    REFUSED((feed(1, 0), feed(0, 0), lent.journal[SECOND + 1] ^= 0x10000000), read_row(0, 8), BOX_REFUSED_JOURNAL);
    /* a minute below that of the row before, an empty row's among them, and words of other kinds */
    REFUSED((minute = 5, feed(1, 0), feed(1, 1), lent.journal[SECOND + 2]--), feed(1, 1), BOX_REFUSED_JOURNAL);
    REFUSED((minute = 5, feed(1, 0), feed(0, 0), lent.journal[SECOND + 2]--), strike(0), BOX_REFUSED_JOURNAL);
    REFUSED((minute = 5, feed(0, 0), feed(1, 0), lent.journal[3]++), close_into(8), BOX_REFUSED_JOURNAL);
    REFUSED((feed(1, 0), lent.journal[3] ^= 0x10000000), read_row(0, 8), BOX_REFUSED_JOURNAL);
    REFUSED((feed(1, 0), lent.journal[3] = 0), predecessor(), BOX_REFUSED_JOURNAL);
}

static void refusals(void) {
    REFUSED_NETWORK(network.elements = MOST_ELEMENTS, BOX_REFUSED_COUNTS);
    REFUSED_NETWORK((shut(1, 5, 9), window_counts[1] = BOX_MAX_WINDOWS + 1), BOX_REFUSED_COUNTS);
    REFUSED_NETWORK((shut(1, 5, 9), window_counts[0] = UINT32_MAX), BOX_REFUSED_COUNTS);
    REFUSED_NETWORK(lengths[1] = -1, BOX_REFUSED_LENGTH);
    REFUSED_NETWORK(headings[5] = 360, BOX_REFUSED_HEADING);
    REFUSED_NETWORK(to_side[1] = 2, BOX_REFUSED_SIDE);
    REFUSED_NETWORK(to[1] = 1, BOX_REFUSED_SELF_RELATION);
    REFUSED_NETWORK(shut(1, 5, 5), BOX_REFUSED_WINDOW);
    REFUSED_NETWORK((shut(0, 5, 6), shut(0, 7, 6)), BOX_REFUSED_WINDOW);
    REFUSED_NETWORK((to[1] = 3, shut(1, 5, 5)), BOX_REFUSED_WINDOW); /* of a relation that is skipped */
    REFUSED_NETWORK((to[1] = 1, shut(0, 5, 5)), BOX_REFUSED_SELF_RELATION);
    REFUSED_NETWORK((lengths[1] = -1, shut(0, 5, 5), window_counts[0] = BOX_MAX_WINDOWS + 1), BOX_REFUSED_COUNTS);
    window_lists();
    REFUSED(scale = 0, feed(1, 0), BOX_REFUSED_SETTING);
    REFUSED(beta = NAN, list_steps(0, 8), BOX_REFUSED_SETTING);
    REFUSED(scale = NAN, replay(), BOX_REFUSED_SETTING);
    journals();
    REFUSED(AS_IT_IS, feed(BOX_MAX_CANDIDATES + 1, 0), BOX_REFUSED_CANDIDATE_COUNT);
    REFUSED(elements[0] = 3, feed(1, 0), BOX_REFUSED_CANDIDATE);
    REFUSED((feed(1, 0), network.elements = 0), list_steps(0, 8), BOX_REFUSED_CANDIDATE);
    REFUSED((feed(1, 0), network.elements = 0), replay(), BOX_REFUSED_CANDIDATE);
    REFUSED((feed(1, 0), network.elements = 0), build_into(ROOM), BOX_REFUSED_CANDIDATE);
    REFUSED(AS_IT_IS, feed(1, 1), BOX_REFUSED_DISTANCES);
    REFUSED(minute = BOX_MAX_MINUTE + 1, feed(1, 0), BOX_REFUSED_MINUTE);
    REFUSED(minute = UINT32_MAX, feed(0, 0), BOX_REFUSED_MINUTE);
    REFUSED((minute = 5, feed(1, 0), minute = 4), feed(1, 1), BOX_REFUSED_MINUTE);
    REFUSED((minute = 5, feed(1, 0), minute = 4), feed(0, 0), BOX_REFUSED_MINUTE);
    REFUSED((feed(1, 0), minute = 5, feed(0, 0), minute = 4), feed(1, 1), BOX_REFUSED_MINUTE); /* below an empty row's */
    REFUSED(AS_IT_IS, feed_into(BOX_RECORD_WORDS(1, 0), 1, 0), BOX_REFUSED_ROOM);
    REFUSED(AS_IT_IS, box_open(lent.journal, 0), BOX_REFUSED_ROOM);
    REFUSED(AS_IT_IS, strike(1), BOX_REFUSED_ROW);
    REFUSED(AS_IT_IS, read_row(0, 8), BOX_REFUSED_ROW);
    REFUSED(feed(1, 0), row(1), BOX_REFUSED_ROW);
    REFUSED(AS_IT_IS, list_steps(0, 8), BOX_REFUSED_ROW);
    REFUSED(lent.segments[0].first_row = 1, collapse(1, 6), BOX_REFUSED_SEGMENT);
    REFUSED(lent.segments[0].end_intrinsic = 1.5, collapse(1, 6), BOX_REFUSED_SEGMENT);
    REFUSED(mark(0, 0x7FF0000000ABCDEF), collapse(4, 24), BOX_REFUSED_SEGMENT);
    REFUSED(mark(3, 0x7FF0000000ABCDEF), collapse(4, 24), BOX_REFUSED_SEGMENT);
    REFUSED(mark(3, 0x7FF8000000001234), collapse(4, 23), BOX_REFUSED_SEGMENT);
    REFUSED(mark(3, 0x8000000000000000), collapse(4, 23), BOX_REFUSED_BUFFER);
    REFUSED(mark(4, 0x7FF0000000ABCDEF), collapse(4, 23), BOX_REFUSED_BUFFER);
    REFUSED(AS_IT_IS, collapse(1, 5), BOX_REFUSED_BUFFER);
    REFUSED(AS_IT_IS, route_into(2, 5), BOX_REFUSED_BUFFER);
    REFUSED(feed(1, 0), close_into(0), BOX_REFUSED_BUFFER);
    REFUSED(feed(1, 0), read_row(0, 0), BOX_REFUSED_BUFFER);
    REFUSED((feed(1, 0), feed(1, 1)), list_steps(1, 0), BOX_REFUSED_BUFFER);
    REFUSED(feed(1, 0), build_into(0), BOX_REFUSED_BUFFER);
    REFUSED(AS_IT_IS, distance(3, 0), BOX_NONE);
    REFUSED(AS_IT_IS, route_into(3, 8), BOX_NONE);
    REFUSED(AS_IT_IS, close_into(8), BOX_NONE);
    REFUSED(AS_IT_IS, predecessor(), BOX_NONE);
    REFUSED(feed(0, 0), predecessor(), BOX_NONE);
    REFUSED((raw_logs[0] = -INFINITY, feed(1, 0)), predecessor(), BOX_NONE);
    constant_lists();
    order_of_checks();
}

/* ---- limits */

/* What a spoilt value refuses, and its limit does not. */
#define LIMIT(name, place, at, past, call, number) \
    do { \
        start(), place = (at); \
        expect(name " at its limit", call, BOX_DONE); \
        start(), place = (past); \
        expect(name " past its limit", call, number); \
    } while (0)

/* 65,535 rows without candidates at minute 5: five words each. */
static uint32_t feed_empty(uint32_t *journal, size_t words, uint32_t at) {
    return box_feed(BOX_NETWORK(network), beta, scale, journal, words, at, NULL, 0, NULL, 0, NULL, 0, NULL, 0, NULL, 0);
}

static void row_limit(void) {
    static uint32_t journal[1 + 5 * (BOX_MAX_ROWS + 1)];
    static const uint32_t record[5] = {0x10000000, 0x70000000, 0x80000005, 0x30000000, 0x40000005};
    start();
    for (size_t row = 0; row < BOX_MAX_ROWS; row++) memcpy(journal + 1 + 5 * row, record, sizeof record);
    journal[0] = 0x50000000 + 1 + 5 * BOX_MAX_ROWS;
    size_t words = sizeof journal / sizeof journal[0];
    expect("one row too many, and too early", feed_empty(journal, words, 4), BOX_REFUSED_MINUTE);
    expect("one row too many", feed_empty(journal, words, 5), BOX_REFUSED_ROW_LIMIT);
    expect("one row too many, and no room", feed_empty(journal, words - 5, 5), BOX_REFUSED_ROW_LIMIT);
    expect("one row struck", box_strike(journal, words, 1), BOX_DONE);
    expect("the last row", feed_empty(journal, words, 5), BOX_DONE);
    expect("all replayed", box_replay(BOX_NETWORK(network), beta, scale, journal, words, &lent.differing), BOX_DONE);
}

/* Four windows of every relation of the most, a fifth of the last, and one that does not end after its first minute. */
static void window_limit(void) {
    start(), network.elements = BOX_MAX_ELEMENTS, network.relations = BOX_MAX_RELATIONS;
    for (uint32_t i = 0; i < BOX_MAX_WINDOWS * BOX_MAX_RELATIONS; i++) shut(i / BOX_MAX_WINDOWS, i, i + 1);
    expect("four windows of each relation", check(), BOX_DONE);
    window_counts[BOX_MAX_RELATIONS - 1]++;
    expect("five windows of the last", check(), BOX_REFUSED_COUNTS);
    window_counts[BOX_MAX_RELATIONS - 1]--, window_lasts[BOX_MAX_WINDOWS * BOX_MAX_RELATIONS - 1]--;
    expect("an empty window at the end", check(), BOX_REFUSED_WINDOW);
    window_counts[BOX_MAX_RELATIONS - 1]--;
    expect("the same past the count", check(), BOX_DONE);
}

/* How many steps lead to element 1 from a fix on element 0 that is so far away; of the four routes the longest is 225 m. */
static uint32_t steps_over(double apart) {
    start(), beta = 1;
    feed(1, 0), elements[0] = 1, distances[0] = apart, feed(1, 1);
    return list_steps(1, 1) == BOX_DONE ? (uint32_t)lent.count : 2;
}

static void limits(void) {
    LIMIT("elements", network.elements, BOX_MAX_ELEMENTS, BOX_MAX_ELEMENTS + 1, check(), BOX_REFUSED_COUNTS);
    LIMIT("relations", network.relations, BOX_MAX_RELATIONS, BOX_MAX_RELATIONS + 1, check(), BOX_REFUSED_COUNTS);
    LIMIT("length", lengths[2], BOX_MAX_LENGTH, nextafter(BOX_MAX_LENGTH, INFINITY), check(), BOX_REFUSED_LENGTH);
    LIMIT("least length", lengths[2], 0.0, -0.0, check(), BOX_REFUSED_LENGTH);
    LIMIT("heading", headings[11], nextafter(BOX_END_OF_HEADINGS, 0), BOX_END_OF_HEADINGS, check(), BOX_REFUSED_HEADING);
    LIMIT("least beta", beta, BOX_MIN_SETTING, nextafter(BOX_MIN_SETTING, 0), feed(1, 0), BOX_REFUSED_SETTING);
    LIMIT("beta of 0", beta, 0, -1, feed(1, 0), BOX_REFUSED_SETTING);
    LIMIT("beta", beta, BOX_MAX_SETTING, nextafter(BOX_MAX_SETTING, INFINITY), feed(1, 0), BOX_REFUSED_SETTING);
    LIMIT("least scale", scale, BOX_MIN_SETTING, nextafter(BOX_MIN_SETTING, 0), feed(1, 0), BOX_REFUSED_SETTING);
    LIMIT("scale", scale, BOX_MAX_SETTING, nextafter(BOX_MAX_SETTING, INFINITY), feed(1, 0), BOX_REFUSED_SETTING);
    LIMIT("raw log", raw_logs[0], BOX_MIN_RAW_LOG, nextafter(BOX_MIN_RAW_LOG, -INFINITY), feed(1, 0), BOX_REFUSED_CANDIDATE);
    LIMIT("no raw log", raw_logs[0], -INFINITY, NAN, feed(1, 0), BOX_REFUSED_CANDIDATE);
    LIMIT("intrinsic", intrinsics[0], 1, nextafter(1, 2), feed(1, 0), BOX_REFUSED_CANDIDATE);
    LIMIT("near flag", near_flags[0], 1, 2, feed(1, 0), BOX_REFUSED_CANDIDATE);
    LIMIT("distance", distances[0], BOX_MAX_DISTANCE, nextafter(BOX_MAX_DISTANCE, INFINITY), (feed(1, 0), feed(1, 1)),
        BOX_REFUSED_DISTANCES);
    LIMIT("minute", minute, BOX_MAX_MINUTE, BOX_MAX_MINUTE + 1, feed(1, 0), BOX_REFUSED_MINUTE);
    LIMIT("a segment's row", lent.segments[0].last_row, BOX_MAX_ROWS - 1, BOX_MAX_ROWS, collapse(1, BOX_DECISION_WORDS),
        BOX_REFUSED_SEGMENT);
    start();
    expect("16 candidates", feed(BOX_MAX_CANDIDATES, 0), BOX_DONE);
    expect("no predecessor", lent.journal[0], 0x50000000 + 1 + BOX_RECORD_WORDS(BOX_MAX_CANDIDATES, 0));
    expect("parent", read_row(0, BOX_MAX_CANDIDATES) == BOX_DONE && lent.numbers[2][15] == BOX_NO_PARENT, 1);
    start();
    expect("exact room", feed_into(1 + BOX_RECORD_WORDS(1, 0), 1, 0), BOX_DONE);
    expect("a word too few", feed_into(BOX_RECORD_WORDS(1, 0) + BOX_RECORD_WORDS(2, 1), 2, 2), BOX_REFUSED_ROOM);
    expect("exact room", feed_into(1 + BOX_RECORD_WORDS(1, 0) + BOX_RECORD_WORDS(2, 1), 2, 2), BOX_DONE);
    row_limit();
    window_limit();
    expect("the lowest step", steps_over(225 - BOX_MIN_STEP) == 1 && lent.floats[0][0] == BOX_MIN_STEP, 1);
    expect("a step below it", steps_over(nextafter(225 - BOX_MIN_STEP, INFINITY)), 0);
}

/* ---- empty */

static void empty(void) {
    enum { ONE_ROW = 1 + BOX_RECORD_WORDS(0, 0) };
    uint32_t word, row_number = 9, fed_at = 9;
    size_t count = 9, second = 9;
    double value = 9;
    start();
#define NO_RELATIONS NULL, 0, NULL, 0, NULL, 0, NULL, 0, NULL, 0, NULL, 0, NULL, 0, NULL, 0, NULL, 0
#define NOTHING NO_RELATIONS, NULL, 0, NULL, 0, NULL, 0
    expect("network", box_check_network(NOTHING), BOX_DONE);
    expect("windows of no relation", box_check_network(NO_RELATIONS, window_counts, 1, window_firsts, 4, window_lasts, 4),
        BOX_REFUSED_COUNTS);
    expect("distance", box_shortest_path_distance(NOTHING, 0, 0, 0, 0, 0, &value), BOX_NONE);
    expect("route", box_shortest_path_route(NOTHING, 0, 0, 0, 0, 0, NULL, 0, &value, &count), BOX_NONE);
    expect("triple", box_triple_is_consistent(NOTHING, 0, 0, 1, 2, &word), BOX_DONE);
    expect("it is not consistent", word, 0);
    expect("open", box_open(NULL, 0), BOX_REFUSED_ROOM);
    expect("open", box_open(&word, 1), BOX_DONE);
    expect("feed", box_feed(NOTHING, 1, 1, &word, 1, 0, NULL, 0, NULL, 0, NULL, 0, NULL, 0, NULL, 0), BOX_REFUSED_ROOM);
    expect("close", box_close(&word, 1, NULL, 0, NULL, 0, &value, &count), BOX_NONE);
    expect("close", box_close(NULL, 0, NULL, 0, NULL, 0, &value, &count), BOX_REFUSED_JOURNAL);
    expect("predecessor", box_predecessor(&word, 1, &row_number, &count), BOX_NONE);
    expect("predecessor", box_predecessor(NULL, 0, &row_number, &count), BOX_REFUSED_JOURNAL);
    expect("replay", box_replay(NOTHING, 1, 1, &word, 1, &row_number), BOX_DONE);
    expect("replay", box_replay(NOTHING, 1, 1, NULL, 0, &row_number), BOX_REFUSED_JOURNAL);
    expect("values kept", value == 9 && count == 9 && row_number == 9, 1);
    expect("build", box_build_path(NOTHING, &word, 1, NULL, 0, &count), BOX_DONE);
    expect("no segments", count == 0, 1);
    expect("collapse", box_remove_oscillations(NULL, 0, NULL, 0, &count, &second), BOX_DONE);
    expect("no decisions", count == 0 && second == 0, 1);
    minute = 5;
    expect("a row without candidates", feed_into(ONE_ROW, 0, 0), BOX_DONE);
    expect("read", box_read_row(lent.journal, ONE_ROW, 0, NULL, 0, NULL, 0, NULL, 0, NULL, 0, NULL, 0, NULL, 0, NULL, 0, &count,
        &second, &fed_at), BOX_DONE);
    expect("its minute", fed_at, 5);
    expect("steps", box_list_steps(BOX_NETWORK(network), 1, 1, lent.journal, ONE_ROW, 0, NULL, 0, NULL, 0, NULL, 0, NULL, 0,
        NULL, 0, &count), BOX_DONE);
    expect("no steps", count == 0 && second == 0, 1);
    expect("replay", box_replay(NOTHING, 1, 1, lent.journal, ONE_ROW, &row_number), BOX_DONE);
}

/* ---- words */

/* Two rows that score, one without candidates, and one more. */
static void predecessors(void) {
    enum { FIRST = 1, SECOND = FIRST + BOX_RECORD_WORDS(1, 0), EMPTY = SECOND + BOX_RECORD_WORDS(1, 1),
        LAST = EMPTY + BOX_RECORD_WORDS(0, 0) };
    start();
    expect("feeds", (feed(1, 0), feed(1, 1), feed(0, 0), feed(1, 1)), BOX_DONE);
    expect("the first row has no predecessor", lent.journal[FIRST + 1], 0x70000000);
    expect("the second row's predecessor", lent.journal[SECOND + 1], 0x70000000 + FIRST);
    expect("the empty row's predecessor", lent.journal[EMPTY + 1], 0x70000000 + SECOND);
    expect("the last row's predecessor", lent.journal[LAST + 1], 0x70000000 + SECOND);
}

/* A row of c candidates on a predecessor of p, each from 0 to the most: how long its record is, and that no less room is enough. */
static void record_words(void) {
    enum { COUNTS = BOX_MAX_CANDIDATES + 1 };
    for (uint32_t pair = 0; pair < COUNTS * COUNTS; pair++) {
        uint32_t c = pair / COUNTS, p = pair % COUNTS, used = 1 + BOX_RECORD_WORDS(p, 0), end = used + BOX_RECORD_WORDS(c, p);
        start();
        expect("the predecessor", feed(p, 0), BOX_DONE);
        expect("a word too few for a record", feed_into(end - 1, c, c * p), BOX_REFUSED_ROOM);
        expect("room for a record", feed_into(end, c, c * p), BOX_DONE);
        expect("used words", lent.journal[0], 0x50000000 + end);
        expect("a record's length", lent.journal[end - 1], 0x40000000 + end - used);
        expect("both rows struck", strike(2), BOX_DONE);
    }
}

/* The minute's word, of rows with and without candidates. */
static void minute_words(void) {
    enum { FIRST = 1, EMPTY = FIRST + BOX_RECORD_WORDS(1, 0), LAST = EMPTY + BOX_RECORD_WORDS(0, 0) };
    start();
    expect("feeds", (minute = 5, feed(1, 0), minute = 60, feed(0, 0), minute = BOX_MAX_MINUTE, feed(1, 1)), BOX_DONE);
    expect("the first row's minute", lent.journal[FIRST + 2], 0x80000005);
    expect("the empty row's minute", lent.journal[EMPTY + 2], 0x8000003C);
    expect("the last row's minute", lent.journal[LAST + 2], 0x8FFFFFFF);
}

static void words(void) {
    static const uint32_t document[13] = {
        0x5000000D, 0x10000001, 0x70000000, 0x80000000, 0x2000FC00, 0x3FE00000, 0, 0xBFF00000, 0, 0xBFF00000, 0, 0x30000000,
        0x4000000C,
    };
    start();
    expect("feed", feed(1, 0), BOX_DONE);
    expect("document 01's words", memcmp(lent.journal, document, sizeof document) == 0, 1);
    expect("the word past them", lent.journal[13], 0xEEEEEEEE);
    predecessors();
    minute_words();
    record_words();
}

/* ---- rows */

/* The predecessor by reading rows back from the last, of so many, until one has a finite score. */
static uint32_t read_back(uint32_t rows) {
    while (rows-- > 0) {
        expect("a row", row(rows), BOX_DONE);
        for (size_t i = 0; i < lent.row.count; i++) {
            if (isfinite(lent.row.scores[i])) return rows;
        }
    }
    return BOX_MAX_ROWS;
}

/* Of so many rows the call tells the one that is found by reading back, and how many distances a fix has. */
static void counted_from(uint32_t rows) {
    uint32_t found = read_back(rows), answer = predecessor();
    size_t candidates = found == BOX_MAX_ROWS ? 0 : lent.row.count;
    expect("whether there is a predecessor", answer, found == BOX_MAX_ROWS ? BOX_NONE : BOX_DONE);
    if (answer == BOX_DONE) {
        expect("its row", lent.predecessor, found);
        expect("its candidates", lent.count == candidates, 1);
    }
    expect("a distance too many", feed(3, 3 * candidates + 1), BOX_REFUSED_DISTANCES);
    if (candidates > 0) expect("a distance too few", feed(3, 3 * candidates - 1), BOX_REFUSED_DISTANCES);
    expect("as many distances as it says", feed(3, 3 * candidates), BOX_DONE);
    expect("that row struck", strike(1), BOX_DONE);
}

/* Rows with and without candidates, one of them without a finite score, fed and then struck one by one. */
static void next_rows(void) {
    static const struct { size_t candidates; double raw_log; } fed[] = {
        {0, 0}, {2, -INFINITY}, {4, -1}, {0, 0}, {0, 0}, {1, -1}, {2, -1}, {0, 0},
    };
    const uint32_t rows = sizeof fed / sizeof fed[0];
    size_t before = 0;
    start();
    for (uint32_t i = 0; i < rows; i++) {
        raw_logs[0] = -1, minute = i, counted_from(i);
        for (size_t k = 0; k < fed[i].candidates; k++) raw_logs[k] = fed[i].raw_log;
        expect("a row", feed(fed[i].candidates, fed[i].candidates * before), BOX_DONE);
        if (fed[i].candidates > 0 && isfinite(fed[i].raw_log)) before = fed[i].candidates;
    }
    for (int k = 0; k < BOX_MAX_CANDIDATES; k++) raw_logs[k] = -1;
    for (uint32_t i = rows; i > 0; i--) {
        counted_from(i);
        expect("a row struck", strike(1), BOX_DONE);
    }
    counted_from(0);
}

/* A row as a structure is that of the call with its buffers, and the entries past it stay. */
static void row_structure(uint32_t number, size_t candidates, size_t before, uint32_t fed_at) {
    struct box_row read;
    memset(&read, 0xEE, sizeof read), memset(&lent.row, 0xEE, sizeof lent.row);
    expect("a row", box_read_row(lent.journal, WORDS, number, read.elements, BOX_MAX_CANDIDATES, read.intrinsics,
        BOX_MAX_CANDIDATES, read.near_flags, BOX_MAX_CANDIDATES, read.raw_logs, BOX_MAX_CANDIDATES, read.parents,
        BOX_MAX_CANDIDATES, read.scores, BOX_MAX_CANDIDATES, read.distances, BOX_MAX_STEPS, &read.count,
        &read.predecessor_count, &read.minute), BOX_DONE);
    expect("a row as a structure", row(number), BOX_DONE);
    expect("its counts", lent.row.count == candidates && lent.row.predecessor_count == before, 1);
    expect("its minute", lent.row.minute, fed_at);
    expect("its fields", memcmp(&lent.row, &read, sizeof read) != 0, 0);
    expect("a row that does not stand", row(number + 2), BOX_REFUSED_ROW);
    expect("the structure is kept", memcmp(&lent.row, &read, sizeof read) != 0, 0);
}

static void rows(void) {
    next_rows();
    start();
    for (uint32_t i = 0; i < BOX_MAX_CANDIDATES; i++) {
        elements[i] = i % 3, intrinsics[i] = i / 16.0, near_flags[i] = i % 2, raw_logs[i] = -1.0 - i;
    }
    for (uint32_t i = 0; i < BOX_MAX_STEPS; i++) distances[i] = i;
    expect("row 0", (minute = 7, feed(BOX_MAX_CANDIDATES, 0)), BOX_DONE);
    expect("row 1", (minute = 9, feed(BOX_MAX_CANDIDATES, BOX_MAX_STEPS)), BOX_DONE);
    row_structure(0, BOX_MAX_CANDIDATES, 0, 7);
    row_structure(1, BOX_MAX_CANDIDATES, BOX_MAX_CANDIDATES, 9);
    expect("row 1 struck", (strike(1), minute = 8, feed(3, 3 * BOX_MAX_CANDIDATES)), BOX_DONE);
    row_structure(1, 3, BOX_MAX_CANDIDATES, 8);
}

/* ---- windows */

/* One more row, of one candidate on an element, on a predecessor of one or none. */
static void feed_on(uint32_t element, uint32_t at) {
    size_t pairs = predecessor() == BOX_DONE;
    elements[0] = element, minute = at;
    expect("a row", feed(1, pairs), BOX_DONE);
}

static uint32_t steps_into(uint32_t row) { return list_steps(row, 1) == BOX_DONE ? (uint32_t)lent.count : 9; }

static uint32_t segments(void) { return build_into(ROOM) == BOX_DONE ? (uint32_t)lent.count : 9; }

/* A row on element 0 at minute 0, and one on another element at a minute. */
static void feed_two(uint32_t element, uint32_t at) { box_open(lent.journal, WORDS), feed_on(0, 0), feed_on(element, at); }

/* Relation 0 alone joins element 0 to 1 and to 2 behind it: whether it is open at a minute, both ways, by all calls that ask. */
static void is_open(uint32_t at, uint32_t open) {
    const uint32_t expected = open ? BOX_DONE : BOX_NONE;
    minute = at;
    expect("distance", distance(1, 0), expected);
    expect("distance back", box_shortest_path_distance(BOX_NETWORK(network), at, 1, 0, 0, 1, &lent.value), expected);
    expect("route", route_into(1, 8), expected);
    expect("triple", (triple_of(0, 1, 2), lent.consistent), open);
    expect("triple back", (triple_of(2, 1, 0), lent.consistent), open);
    if (at > BOX_MAX_MINUTE) return;
    expect("steps", (feed_two(1, at), steps_into(1)), open);
    expect("a possible step scores", (read_row(1, 1), lent.floats[2][0] > -20), open);
    expect("segments", (feed_two(2, at), segments()), open ? 3 : 2);
}

static void window_edges(void) {
    start(), is_open(0, 1), is_open(UINT32_MAX, 1);
    start(), shut(0, 10, 20), is_open(0, 1), is_open(9, 1), is_open(10, 0), is_open(19, 0), is_open(20, 1);
    start(), shut(0, 0, 1), is_open(0, 0), is_open(1, 1);
    start(), shut(0, BOX_MAX_MINUTE, UINT32_MAX), is_open(BOX_MAX_MINUTE - 1, 1), is_open(BOX_MAX_MINUTE, 0);
    is_open(BOX_MAX_MINUTE + 1, 0), is_open(UINT32_MAX - 1, 0), is_open(UINT32_MAX, 1);
}

/* Four windows out of order: two that overlap, one that begins where they end, and one by itself. */
static void several_windows(void) {
    start(), shut(0, 50, 60), shut(0, 15, 30), shut(0, 30, 31), shut(0, 10, 20);
    is_open(9, 1), is_open(10, 0), is_open(15, 0), is_open(19, 0), is_open(20, 0), is_open(29, 0), is_open(30, 0), is_open(31, 1);
    is_open(49, 1), is_open(50, 0), is_open(59, 0), is_open(60, 1);
    /* past the count: windows that would shut the relation at 55, and such as would be refused */
    window_counts[0] = 0, is_open(55, 1);
    window_lasts[3] = 0, window_counts[0] = 3, is_open(10, 1), is_open(15, 0), is_open(55, 0);
}

/* Windows of relation 1, and of one that is skipped, do not shut relation 0. */
static void other_relations(void) {
    start(), shut(1, 10, 20), minute = 15;
    expect("the relation before", distance(1, 1), BOX_DONE);
    expect("the relation shut", distance(2, 0), BOX_NONE);
    expect("the triple", (triple(), lent.consistent), 0);
    minute = 20;
    expect("the relation open again", distance(2, 0), BOX_DONE);
    start(), network.relations = 3, from[2] = 0, to[2] = 3, shut(2, 10, 20), is_open(15, 1);
    /* a second relation of the same sides stays open */
    start(), network.relations = 3, from[2] = 0, to[2] = 1, shut(0, 10, 20), is_open(15, 1);
}

/* A row's steps are those at its own minute, whenever they are listed. */
static void steps_at_minutes(void) {
    start(), shut(0, 10, 20), feed_on(0, 9), feed_on(1, 9), feed_on(0, 10), feed_on(1, 19), feed_on(0, 20);
    expect("steps at 9", steps_into(1), 1);
    expect("steps at 10", steps_into(2), 0);
    expect("steps at 19", steps_into(3), 0);
    expect("steps at 20", steps_into(4), 1);
}

/* A bridge is one at the minute of the later group's first row. */
static void bridges_at_minutes(void) {
    start(), shut(0, 10, 20), feed_on(0, 0), feed_on(2, 9), feed_on(2, 12);
    expect("the group's first row before the window", segments(), 3);
    start(), shut(0, 10, 20), feed_on(0, 12), feed_on(2, 20);
    expect("the earlier group in the window", segments(), 3);
    start(), shut(0, 10, 20), feed_on(0, 9), feed_on(2, 19), feed_on(2, 20);
    expect("the group's first row in the window", segments(), 2);
}

static void read_minute(uint32_t number, uint32_t expected) {
    lent.minute = 1;
    expect("a row", read_row(number, BOX_MAX_STEPS), BOX_DONE);
    expect("its minute", lent.minute, expected);
}

/* Minutes that stay, rise and fall, also behind an empty row and after a strike. */
static void row_minutes(void) {
    start();
    expect("the first row", (minute = 7, feed(1, 0)), BOX_DONE);
    expect("the same minute", feed(1, 1), BOX_DONE);
    expect("an empty row later", (minute = 9, feed(0, 0)), BOX_DONE);
    expect("before the empty row", (minute = 8, feed(1, 1)), BOX_REFUSED_MINUTE);
    expect("with the empty row", (minute = 9, feed(1, 1)), BOX_DONE);
    read_minute(0, 7), read_minute(1, 7), read_minute(2, 9), read_minute(3, 9);
    expect("both struck", (strike(2), minute = 6, feed(1, 1)), BOX_REFUSED_MINUTE);
    expect("before those struck", (minute = 8, feed(1, 1)), BOX_DONE);
    expect("the last minute", (minute = BOX_MAX_MINUTE, feed(1, 1)), BOX_DONE);
    expect("a minute past it", (minute = BOX_MAX_MINUTE + 1, feed(1, 1)), BOX_REFUSED_MINUTE);
    expect("a minute before it", (minute = BOX_MAX_MINUTE - 1, feed(1, 1)), BOX_REFUSED_MINUTE);
    read_minute(2, 8), read_minute(3, BOX_MAX_MINUTE);
    expect("all struck", (strike(4), minute = 0, feed(1, 0)), BOX_DONE);
    read_minute(0, 0);
}

static void windows(void) {
    window_edges();
    several_windows();
    other_relations();
    steps_at_minutes();
    bridges_at_minutes();
    row_minutes();
}

/* ---- replay */

/* No row has this number. */
enum { CLEAN = BOX_MAX_ROWS };

/* What replaying tells, and that it changes nothing but the number of a row that differs. */
static void replays(const char *what, uint32_t expected, uint32_t differing) {
    static struct lent before;
    lent.differing = CLEAN, before = lent;
    expect(what, replay(), expected);
    expect("the row that differs", lent.differing, differing);
    before.differing = differing;
    expect("replaying changes memory", memcmp(&before, &lent, sizeof lent) != 0, 0);
}

static void is_clean(const char *what) { replays(what, BOX_DONE, CLEAN); }

static void differs(const char *what, uint32_t row) { replays(what, BOX_DIFFERS, row); }

/* It tells what the other calls do: each row is read back, fed again into another journal, and compared. */
static void fed_again(const char *what) {
    static uint32_t journal[WORDS];
    const struct box_row *fed = &lent.row;
    uint32_t used = lent.journal[0] & 0xFFFFFFF, at = 1, refusal = list_steps(BOX_MAX_ROWS, 0);
    if (refusal != BOX_REFUSED_ROW) {
        replays(what, refusal, CLEAN);
        return;
    }
    box_open(journal, WORDS);
    for (uint32_t number = 0; at < used; number++) {
        size_t count = (expect("a row", row(number), BOX_DONE), fed->count);
        expect(what, box_feed(BOX_NETWORK(network), beta, scale, journal, WORDS, fed->minute, fed->elements, count, fed->intrinsics,
            count, fed->near_flags, count, fed->raw_logs, count, fed->distances, count * fed->predecessor_count), BOX_DONE);
        uint32_t end = journal[0] & 0xFFFFFFF;
        if (memcmp(journal + at, lent.journal + at, (end - at) * sizeof *journal) != 0) {
            differs(what, number);
            return;
        }
        at = end;
    }
    is_clean(what);
}

/* A row without a finite score, two in one minute, an empty one, one after it, one to which no step is possible, one in a window,
   which leaves its second candidate without a step, and one after that. Their heads are at these words. */
enum { ROW_0 = 1, ROW_1 = ROW_0 + BOX_RECORD_WORDS(1, 0), ROW_2 = ROW_1 + BOX_RECORD_WORDS(2, 0),
    ROW_3 = ROW_2 + BOX_RECORD_WORDS(2, 2), ROW_4 = ROW_3 + BOX_RECORD_WORDS(0, 0), ROW_5 = ROW_4 + BOX_RECORD_WORDS(2, 2),
    ROW_6 = ROW_5 + BOX_RECORD_WORDS(1, 2), ROW_7 = ROW_6 + BOX_RECORD_WORDS(2, 1), END = ROW_7 + BOX_RECORD_WORDS(2, 2) };

/* One more row, of candidates on these elements. */
static void feed_row(uint32_t at, size_t candidates, uint32_t first, uint32_t second, size_t pairs) {
    elements[0] = first, elements[1] = second, minute = at;
    expect("a row", feed(candidates, pairs), BOX_DONE);
}

static void drive(void) {
    start(), shut(1, 10, 20), intrinsics[1] = 0.75, raw_logs[0] = -INFINITY;
    feed_row(5, 1, 0, 0, 0), raw_logs[0] = -0.7;
    for (uint32_t i = 0; i < 4; i++) distances[i] = 40.1 + i;
    feed_row(5, 2, 0, 1, 0), feed_row(5, 2, 0, 1, 4), feed_row(7, 0, 0, 0, 0), feed_row(9, 2, 1, 2, 4);
    distances[0] = distances[1] = BOX_MAX_DISTANCE;
    feed_row(11, 1, 0, 0, 2);
    distances[0] = 30, distances[1] = 60;
    feed_row(12, 2, 1, 2, 2), feed_row(20, 2, 1, 2, 4);
    expect("used words", lent.journal[0], 0x50000000 + END);
}

/* The words of a row's candidate: its own, then intrinsic, raw log and score, high half first. */
static uint32_t *cell(uint32_t head, uint32_t candidate) { return &lent.journal[head + 3 + 7 * candidate]; }

/* What was opened, fed and struck is clean, whatever the words past it are. */
static void fed_and_struck(void) {
    start(), is_clean("an empty journal"), fed_again("an empty journal");
    drive(), is_clean("a drive"), fed_again("a drive");
    memset(lent.journal + END, 0xA5, sizeof lent.journal - END * sizeof lent.journal[0]);
    is_clean("a drive before other words");
    expect("its own words alone", replay_words(END), BOX_DONE);
    expect("a word too few", replay_words(END - 1), BOX_REFUSED_JOURNAL);
    for (uint32_t left = 8; left-- > 0;) {
        expect("a row struck", strike(1), BOX_DONE);
        is_clean("what is left of a drive");
    }
    drive(), strike(4), feed_row(8, 1, 2, 0, 2);
    is_clean("a row instead of four"), fed_again("a row instead of four");
}

/* Scores and parents that feeding would not write: the first row is told, unless the journal is refused. */
static void changed_rows(void) {
    drive(), cell(ROW_2, 1)[6] ^= 1, differs("the lowest bit of a score", 2);
    drive(), cell(ROW_1, 0)[5] ^= 1, differs("a score without a predecessor", 1);
    drive(), cell(ROW_7, 0)[6] ^= 0x80000000, differs("a score of the last row", 7);
    drive(), cell(ROW_0, 0)[5] = 0xBFF00000, replays("a finite score that moves the predecessor", BOX_REFUSED_JOURNAL, CLEAN);
    drive(), cell(ROW_6, 1)[5] = 0xC0590000, differs("a score without a step", 6);
    drive(), cell(ROW_2, 0)[0] ^= 1 << 11, differs("a parent", 2);
    drive(), cell(ROW_6, 1)[0] &= ~(31u << 11), differs("a parent without a step", 6);
    drive(), cell(ROW_5, 0)[6] ^= 1, cell(ROW_2, 0)[6] ^= 1, differs("two scores", 2);
    drive(), cell(ROW_2, 0)[6] ^= 1, cell(ROW_7, 0)[0] |= 3, replays("and an unknown element", BOX_REFUSED_CANDIDATE, CLEAN);
    drive(), cell(ROW_2, 0)[6] ^= 1, lent.journal[ROW_7]++, replays("and a wrong head", BOX_REFUSED_JOURNAL, CLEAN);
    drive(), cell(ROW_7, 0)[6] ^= 1, strike(1), is_clean("a changed row that is struck");
}

/* Another network or other settings than it was fed with. Best steps before row 4 stay on their elements; row 4 has the first to
   element 2, and row 6 the first from element 0, in the window. */
static void other_networks(void) {
    drive(), beta = 11, differs("another beta", 4);
    drive(), lengths[0] = 101, differs("another length of element 0", 6);
    drive(), lengths[2] = 101, differs("another length of element 2", 4);
    drive(), ways[1] = 0, differs("a relation that is not passable", 4);
    drive(), window_firsts[BOX_MAX_WINDOWS] = 9, differs("a window that begins earlier", 4);
    drive(), window_firsts[BOX_MAX_WINDOWS] = 13, differs("a window that begins later", 6);
    drive(), window_lasts[BOX_MAX_WINDOWS] = 21, differs("a window that ends later", 7);
    drive(), network.window_counts = NULL, differs("no windows", 6);
    drive(), shut(0, 21, 30), is_clean("one more window, after the last row");
    drive(), network.elements = 4, is_clean("one more element");
    drive(), headings[0] = 90, scale = 31, fed_again("another heading and scale");
}

/* Every bit of the used words changed, one at a time. */
static void changed_bits(void) {
    for (uint32_t bit = 0; bit < 32 * END; bit++) {
        drive(), lent.journal[bit / 32] ^= (uint32_t)1 << bit % 32;
        fed_again("a bit changed");
    }
}

static void replayed(void) {
    fed_and_struck();
    changed_rows();
    other_networks();
    changed_bits();
}

int main(int count, char **arguments) {
    static const struct { const char *name; void (*run)(void); } groups[] = {
        {"refusals", refusals}, {"limits", limits}, {"empty", empty}, {"words", words}, {"rows", rows}, {"windows", windows},
        {"replay", replayed},
    };
    size_t run = 0;
    for (size_t i = 0; i < sizeof groups / sizeof groups[0]; i++) {
        if (count == 2 && strcmp(arguments[1], groups[i].name) == 0) groups[i].run(), run++;
    }
    if (run != 1) printf("usage: calls refusals|limits|empty|words|rows|windows|replay\n");
    return run != 1 || failures != 0;
}
