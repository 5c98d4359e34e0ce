/* A short drive through the C interface. A train comes from the west, runs through a tunnel, and its host strikes two
   bad fixes at the far portal and feeds better ones. Before the points a reflection throws two fixes on the other
   track; collapsing takes them out again. Later the way to track 1 is shut, and the same fixes lead to track 2. In the
   end the journal is replayed, as it is and with one bit changed. */
#include "box.h"

#include <stdio.h>
#include <stdlib.h>

/* ---- The network. Every element runs from west (side 0) to east (side 1).

                     ,-- 1 track 1 --.
      0 west line --<                 >-- 3 points -- 4 east line
                     '-- 2 track 2 --'
*/

enum { ELEMENTS = 5, RELATIONS = 5 };

static const char *const names[ELEMENTS] = {"west line", "track 1", "track 2", "points", "east line"};
static const double lengths[ELEMENTS] = {400, 600, 600, 10, 500};
static const double headings[4 * ELEMENTS] = {
    270, 90, 90, 270, /* out at side 0, out at side 1, in at side 0, in at side 1 */
    270, 90, 90, 270,
    275, 90, 95, 270,
    270, 90, 90, 270,
    270, 90, 90, 270,
};
static const uint32_t flags[ELEMENTS] = {1, 1, 1, 1, 1};
static const uint32_t from[RELATIONS] = {0, 0, 1, 2, 3};
static const uint32_t to[RELATIONS] = {1, 2, 3, 3, 4};
static const uint32_t from_side[RELATIONS] = {1, 1, 1, 1, 1};
static const uint32_t to_side[RELATIONS] = {0, 0, 0, 0, 0};
static const uint32_t both_ways[RELATIONS] = {1, 1, 1, 1, 1};

/* A possession: relation 0, of west line and track 1, is shut from minute 120 on and open again at 240. */
static const uint32_t window_counts[RELATIONS] = {1, 0, 0, 0, 0};
static const uint32_t window_firsts[RELATIONS * BOX_MAX_WINDOWS] = {120};
static const uint32_t window_lasts[RELATIONS * BOX_MAX_WINDOWS] = {240};

static const struct box_network network = {
    ELEMENTS, lengths, headings, flags, RELATIONS, from, to, from_side, to_side, both_ways, both_ways,
    window_counts, window_firsts, window_lasts,
};

static const double beta = 20, scale = 60;

/* ---- The fixes: metres driven, then up to two candidates, each with its element, intrinsic, near flag and raw log. */

struct fix {
    double metres;
    size_t count;
    uint32_t elements[2];
    double intrinsics[2];
    uint32_t near_flags[2];
    double raw_logs[2];
};

static const struct fix approach[] = {
    {250, 1, {0, 0}, {0.625, 0}, {0, 0}, {-0.1, 0}},
    {350, 1, {0, 0}, {0.875, 0}, {1, 0}, {-0.1, 0}},
    {450, 2, {1, 2}, {0.083, 0.083}, {1, 1}, {-0.3, -2.5}},
    {550, 2, {1, 2}, {0.25, 0.25}, {0, 0}, {-0.3, -2.5}},
    {650, 0, {0, 0}, {0, 0}, {0, 0}, {0, 0}}, /* the tunnel: rows without candidates */
    {750, 0, {0, 0}, {0, 0}, {0, 0}, {0, 0}},
};

static const struct fix at_the_portal[] = {
    {850, 2, {1, 2}, {0.75, 0.75}, {0, 0}, {-9.0, -0.1}}, /* few satellites: track 2 seems much closer */
    {900, 2, {1, 2}, {0.833, 0.833}, {0, 0}, {-9.0, -0.1}},
};

static const struct fix onward[] = {
    {850, 2, {1, 2}, {0.75, 0.75}, {0, 0}, {-0.3, -2.5}}, /* the same two places, worked out again */
    {900, 2, {1, 2}, {0.833, 0.833}, {0, 0}, {-0.3, -2.5}},
    {950, 2, {1, 2}, {0.917, 0.917}, {1, 1}, {-0.3, -2.5}},
    {975, 2, {1, 2}, {0.958, 0.958}, {1, 1}, {-12.0, -0.1}}, /* a reflection */
    {985, 2, {1, 2}, {0.975, 0.975}, {1, 1}, {-12.0, -0.1}},
    {990, 2, {1, 2}, {0.983, 0.983}, {1, 1}, {-0.1, -12.0}},
    {995, 2, {1, 2}, {0.992, 0.992}, {1, 1}, {-0.1, -12.0}},
    {1060, 1, {4, 0}, {0.1, 0}, {1, 0}, {-0.1, 0}},
    {1160, 1, {4, 0}, {0.3, 0}, {0, 0}, {-0.1, 0}},
};

/* ---- The host: the journal's words, how many rows stand in it, and where each of them was fed. */

enum { WORDS = 1024, ROWS = 32 };

struct host {
    uint32_t journal[WORDS];
    uint32_t rows;
    double metres[ROWS];
};

static void expect_done(const char *what, uint32_t status) {
    if (status != BOX_DONE) {
        printf("%s: refused with %u\n", what, (unsigned)status);
        exit(1);
    }
}

static void read_row(const struct host *host, uint32_t number, struct box_row *row) {
    expect_done("read", box_row(host->journal, WORDS, number, row));
}

/* A distance for each pair of a candidate of the predecessor and one of the fix: the metres driven since then, which is
   near enough to all of them on this straight line. */
static uint32_t feed_one(struct host *host, uint32_t minute, const struct fix *fix) {
    double distances[4];
    uint32_t row = 0;
    size_t candidates = 0; /* stays 0 where there is no predecessor */
    uint32_t answer = box_predecessor(host->journal, WORDS, &row, &candidates);
    if (answer != BOX_NONE) expect_done("predecessor", answer);
    size_t pairs = fix->count * candidates;
    for (size_t i = 0; i < pairs; i++) distances[i] = fix->metres - host->metres[row];
    answer = box_feed(BOX_NETWORK(network), beta, scale, host->journal, WORDS, minute, fix->elements, fix->count,
        fix->intrinsics, fix->count, fix->near_flags, fix->count, fix->raw_logs, fix->count, distances, pairs);
    if (answer == BOX_DONE) host->metres[host->rows++] = fix->metres;
    return answer;
}

/* A fix a minute, from this one on. */
static void feed(struct host *host, uint32_t minute, const struct fix *fixes, size_t count) {
    for (size_t i = 0; i < count; i++) expect_done("feed", feed_one(host, minute + (uint32_t)i, &fixes[i]));
}

/* ---- What a person reads. */

static void show_route(uint32_t minute) {
    uint32_t states[BOX_MAX_STATES], through, back;
    double cost, same;
    size_t count;
    expect_done("distance", box_shortest_path_distance(BOX_NETWORK(network), minute, 0, 0, 4, 1, &cost));
    expect_done("route", box_shortest_path_route(BOX_NETWORK(network), minute, 0, 0, 4, 1, states, BOX_MAX_STATES, &same,
        &count));
    printf("  minute %u, from end to end: %.0f m, over", (unsigned)minute, cost);
    for (size_t i = 0; i < count; i++) {
        if (i == 0 || states[i] / 4 != states[i - 1] / 4) printf("%s %s", i == 0 ? "" : ",", names[states[i] / 4]);
    }
    printf("\n");
    expect_done("triple", box_triple_is_consistent(BOX_NETWORK(network), minute, 0, 1, 3, &through));
    expect_done("triple", box_triple_is_consistent(BOX_NETWORK(network), minute, 1, 3, 2, &back));
    printf("  west line, track 1, points: %s; track 1, points, track 2: %s\n", through ? "yes" : "no", back ? "yes" : "no");
}

static void show_steps(const struct host *host, uint32_t number) {
    uint32_t predecessor_rows[BOX_MAX_STEPS], predecessors[BOX_MAX_STEPS], rows[BOX_MAX_STEPS], candidates[BOX_MAX_STEPS];
    double steps[BOX_MAX_STEPS];
    size_t count;
    struct box_row before, row;
    expect_done("steps", box_list_steps(BOX_NETWORK(network), beta, scale, host->journal, WORDS, number, predecessor_rows,
        BOX_MAX_STEPS, predecessors, BOX_MAX_STEPS, rows, BOX_MAX_STEPS, candidates, BOX_MAX_STEPS, steps, BOX_MAX_STEPS, &count));
    for (size_t i = 0; i < count; i++) {
        read_row(host, predecessor_rows[i], &before);
        read_row(host, rows[i], &row);
        printf("  step from row %u to %u, %s to %s: %.3f\n", (unsigned)predecessor_rows[i], (unsigned)rows[i],
            names[before.elements[predecessors[i]]], names[row.elements[candidates[i]]], steps[i]);
    }
}

static void show_path(const struct host *host) {
    uint32_t rows[ROWS], candidates[ROWS];
    double score;
    size_t count;
    struct box_row row;
    expect_done("close", box_close(host->journal, WORDS, rows, ROWS, candidates, ROWS, &score, &count));
    printf("  best path, score %.3f, of %u rows:\n", score, (unsigned)host->rows);
    for (size_t i = 0; i < count; i++) {
        read_row(host, rows[i], &row);
        printf("    row %2u  minute %3u  %4.0f m  %-9s at %.3f\n", (unsigned)rows[i], (unsigned)row.minute,
            host->metres[rows[i]], names[row.elements[candidates[i]]], row.intrinsics[candidates[i]]);
    }
}

static void show_segments(const struct box_segment *segments, size_t count) {
    for (size_t i = 0; i < count; i++) {
        printf("    %-9s from %.3f to %.3f, rows %u to %u\n", names[segments[i].element], segments[i].start_intrinsic,
            segments[i].end_intrinsic, (unsigned)segments[i].first_row, (unsigned)segments[i].last_row);
    }
}

static void show_decisions(const uint32_t *decisions, size_t count) {
    for (const uint32_t *d = decisions; d < decisions + count * BOX_DECISION_WORDS; d += BOX_DECISION_WORDS) {
        printf("    %s goes on over a span of %u rows; removed:", names[d[0]], (unsigned)d[1]);
        for (uint32_t i = 0; i < d[2]; i++) printf("%s %s", i == 0 ? "" : ",", names[d[3 + i]]);
        printf("\n");
    }
}

/* ---- The drives. */

static void drive_in_possession(struct host *host) {
    struct box_row last;
    printf("7. The way from west line to track 1 is shut from minute 120 on, until 240.\n");
    show_route(119);
    show_route(120);
    show_route(240);

    expect_done("open", box_open(host->journal, WORDS));
    host->rows = 0;
    feed(host, 130, approach, sizeof approach / sizeof approach[0]);
    feed(host, 136, onward, 3);
    printf("8. The same fixes from minute 130 on, in a journal opened again.\n");
    show_path(host);

    read_row(host, host->rows - 1, &last);
    printf("9. A fix of minute %u is refused with %u: the last row is of minute %u.\n", (unsigned)last.minute - 1,
        (unsigned)feed_one(host, last.minute - 1, &onward[3]), (unsigned)last.minute);
}

/* The word with the low half of the score of a row's first candidate. A record begins with three words, for the counts,
   the predecessor and the minute; a candidate has one of its own and two for its intrinsic, raw log and score each. */
static uint32_t *score_word(struct host *host, uint32_t number) {
    struct box_row row;
    size_t at = 1;
    for (uint32_t i = 0; i < number; i++) {
        read_row(host, i, &row);
        at += BOX_RECORD_WORDS(row.count, row.predecessor_count);
    }
    return &host->journal[at + 3 + 6];
}

static void show_replay(const char *what, const struct host *host) {
    uint32_t row;
    uint32_t answer = box_replay(BOX_NETWORK(network), beta, scale, host->journal, WORDS, &row);
    if (answer == BOX_DIFFERS) {
        printf("%s: row %u differs.\n", what, (unsigned)row);
    } else {
        expect_done("replay", answer);
        printf("%s: clean.\n", what);
    }
}

static void replay_in_another_cab(struct host *host) {
    show_replay("10. The journal, replayed in another cab", host);
    *score_word(host, 6) ^= 1;
    show_replay("11. The same with one bit of a score in row 6 changed", host);
}

int main(void) {
    static struct host host;
    struct box_segment segments[ROWS];
    uint32_t decisions[ROWS * BOX_DECISION_WORDS];
    size_t count, left, decided;

    expect_done("network", box_check_network(BOX_NETWORK(network)));
    printf("1. The network is accepted.\n");
    show_route(0);

    expect_done("open", box_open(host.journal, WORDS));
    feed(&host, 0, approach, sizeof approach / sizeof approach[0]);
    feed(&host, 6, at_the_portal, sizeof at_the_portal / sizeof at_the_portal[0]);
    printf("2. Fed up to the far portal; rows 4 and 5 are in the tunnel.\n");
    show_path(&host);

    printf("3. Striking 9 rows is refused with %u: only %u stand.\n", (unsigned)box_strike(host.journal, WORDS, 9),
        (unsigned)host.rows);
    expect_done("strike", box_strike(host.journal, WORDS, 2));
    host.rows -= 2;
    feed(&host, 6, onward, sizeof onward / sizeof onward[0]);
    printf("4. The last two rows struck, worked out again, and fed to the end.\n");
    show_path(&host);
    show_steps(&host, 9);

    expect_done("build", box_build_path(BOX_NETWORK(network), host.journal, WORDS, segments, ROWS, &count));
    printf("5. The path as %u segments, bridges among them.\n", (unsigned)count);
    show_segments(segments, count);

    expect_done("collapse",
        box_remove_oscillations(segments, count, decisions, count * BOX_DECISION_WORDS, &left, &decided));
    printf("6. Collapsed: %u segments are left. Decisions: %u.\n", (unsigned)left, (unsigned)decided);
    show_segments(segments, left);
    show_decisions(decisions, decided);

    drive_in_possession(&host);
    replay_in_another_cab(&host);
    return 0;
}
