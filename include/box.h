/* Box decides which track a train is on: it is fed one position fix at a time and tells the best path. Document 01
   says what each call computes; README.md has an overview, and examples/c/drive.c shows every step of a drive.

   Link target/staticlib/libhost.a, which `examples/build archive` writes for x86-64.

   Answers. Each call answers a number of `enum box_status`. Checks run in number order over what the call takes, but
   for 16, which comes right after 5, and 17, right after 10; a call's comment has its refusals in that order. The first
   that fails is the answer. Unless that is BOX_DONE, no memory is changed, but for the row's number that box_replay
   stores with BOX_DIFFERS. A call that is done changes what its comment names, and entries of a buffer past those it
   answers keep what they held.

   Slices. A slice is a pointer and the number of entries behind it; where that is 0 the pointer may be NULL. A pointer
   to a single value may not. Where a list is answered in several slices, it must fit into the shortest. What a call
   writes may not overlap anything else that it is handed. Beyond that nothing is asked: every call ends, whatever
   numbers and words it is handed.

   Distances. A fix comes with a distance for each pair of a candidate of its predecessor and one of its own: in metres,
   along a great circle, between the two candidates' points, the places on their tracks that the fixes were projected to.
   Box is handed no coordinates, so the host keeps the points of each row that it fed until the row is struck; before a
   fix it asks box_predecessor for the row to count from, and hands over distances[j * count + i] for candidate j of that
   row and candidate i of the fix, which has `count` of them.

   Minutes. They are whole and counted from the campaign's start. A fix has its minute, and so has a question about
   routes. A relation may be shut for some minutes, as `struct box_network` says: the steps into a row use the relations
   that are open at the row's minute, also where they are listed later.

   Memory. No call allocates, and nothing is kept between calls: what Box knows stands in the journal, words that the
   host owns, and may copy, store and hand back. Threads may call at once, each on a journal of its own. No call uses
   more stack than BOX_STACK_BYTES; README.md has the table. Floats are IEEE 754 binary64: the processor must round to
   nearest and keep subnormals, as it does where nobody changed it. */
#ifndef BOX_H
#define BOX_H

#include <stddef.h>
#include <stdint.h>

#ifdef __cplusplus
extern "C" {
#endif

enum box_status {
    BOX_DONE = 0,
    BOX_REFUSED_COUNTS = 1,           /* too many elements or relations; headings not 4, or flags not 1, per element;
                                         relation fields of unequal count; over 4 windows of a relation; windows given,
                                         but not 1 count, 4 first and 4 last minutes per relation */
    BOX_REFUSED_LENGTH = 2,           /* an element's length is out of range */
    BOX_REFUSED_HEADING = 3,          /* a heading is out of range */
    BOX_REFUSED_SIDE = 4,             /* a relation's side is above 1 */
    BOX_REFUSED_SELF_RELATION = 5,    /* a relation of an element with itself */
    BOX_REFUSED_SETTING = 6,          /* beta or scale is out of range */
    BOX_REFUSED_JOURNAL = 7,          /* the journal is not well formed */
    BOX_REFUSED_CANDIDATE_COUNT = 8,  /* over 16 candidates, or candidate fields of unequal count */
    BOX_REFUSED_CANDIDATE = 9,        /* an element that the network does not have, in the fix or in a standing row; a
                                         candidate's field is out of range */
    BOX_REFUSED_DISTANCES = 10,       /* the wrong number of distances, or one out of range */
    BOX_REFUSED_ROW_LIMIT = 11,       /* 65,535 rows stand already */
    BOX_REFUSED_ROOM = 12,            /* the journal's slice has too few words left */
    BOX_REFUSED_ROW = 13,             /* more rows to strike than stand, or a row that does not stand */
    BOX_REFUSED_SEGMENT = 14,         /* intrinsic outside 0 to 1, first row after last, or row above 65,534 */
    BOX_REFUSED_BUFFER = 15,          /* the list is longer than a buffer; too few words for decisions */
    BOX_REFUSED_WINDOW = 16,          /* a window's last minute is not after its first; of skipped relations too */
    BOX_REFUSED_MINUTE = 17,          /* the fix's minute is below that of the last row that stands, or out of range */
    BOX_DIFFERS = 254,                /* a row is not as feeding would write it; never a refusal's number */
    BOX_NONE = 255                    /* there is no route, no path, or no predecessor; never a refusal's number */
};

/* Limits. NaN is outside every range. */
#define BOX_MAX_ELEMENTS 1024
#define BOX_MAX_RELATIONS 4096
#define BOX_MAX_WINDOWS 4            /* of a relation */
#define BOX_MAX_LENGTH 1048576.0     /* metres, from 0, sign bit clear */
#define BOX_END_OF_HEADINGS 360.0    /* degrees, from 0, this one excluded */
#define BOX_MIN_SETTING 0.001        /* beta may also be 0 */
#define BOX_MAX_SETTING 1000000.0
#define BOX_MAX_CANDIDATES 16
#define BOX_MIN_RAW_LOG (-745.0)     /* up to 0; or minus infinity */
#define BOX_MAX_DISTANCE 20100000.0  /* metres, from 0 */
#define BOX_MAX_MINUTE 268435455     /* of a fix; windows and questions about routes may have any */
#define BOX_MAX_ROWS 65535
#define BOX_MAX_STATES 4096          /* of a route */
#define BOX_MAX_STEPS 256            /* into a row, and its distances */
#define BOX_MIN_STEP (-745.0)        /* up to 0; a pair of sides with a lower score is impossible */
#define BOX_NO_PARENT 31
#define BOX_DECISION_WORDS 6

/* The words of a row's record: c candidates, on a predecessor of p (0 where the row has no distances). They are one for
   both counts, one for the number of the word at which the predecessor's record begins (0 without a predecessor), one
   for the minute, seven for each candidate, one for the number of distances, two for each of them, and one for the
   record's length. A journal needs one word and those of each row. */
#define BOX_RECORD_WORDS(c, p) (7 * (c) + 2 * (c) * (p) + 5)

#define BOX_STACK_BYTES 131072 /* measured on x86-64 */

/* The track network, twelve slices in each call that takes it. Elements are numbered from 0 and have two ends, side 0
   and side 1. Headings are four per element, in degrees: out at side 0, out at side 1, in at side 0, in at side 1. A
   flag is true unless 0; an element's is 0 where its geometry has under two points. Relation i joins from_side[i] of
   from[i] to to_side[i] of to[i], passable forward, backward or both; one that names an element past the count is
   skipped.

   Relation i has window_counts[i] windows, up to four, which may overlap. Window k shuts it both ways from the minute
   window_firsts[4 * i + k] on; at the minute window_lasts[4 * i + k] it is open again. Entries past the count are not
   looked at. Without any windows the last three pointers are NULL, and the slices empty. */
struct box_network {
    size_t elements;
    const double *lengths;
    const double *headings;
    const uint32_t *flags;
    size_t relations;
    const uint32_t *from;
    const uint32_t *to;
    const uint32_t *from_side;
    const uint32_t *to_side;
    const uint32_t *forward;
    const uint32_t *backward;
    const uint32_t *window_counts;
    const uint32_t *window_firsts;
    const uint32_t *window_lasts;
};

/* A `struct box_network` as the arguments of a call. */
#define BOX_NETWORK(n) \
    (n).lengths, (n).elements, (n).headings, 4 * (n).elements, (n).flags, (n).elements, (n).from, (n).relations, \
    (n).to, (n).relations, (n).from_side, (n).relations, (n).to_side, (n).relations, (n).forward, (n).relations, \
    (n).backward, (n).relations, (n).window_counts, BOX_WINDOWED(n), (n).window_firsts, 4 * BOX_WINDOWED(n), \
    (n).window_lasts, 4 * BOX_WINDOWED(n)

/* The relations that windows are handed over for: all or none. */
#define BOX_WINDOWED(n) ((n).window_counts ? (n).relations : 0)

/* A part of the path: an element, from where to where on it (0 is side 0, 1 is side 1), and its rows. */
struct box_segment {
    uint32_t element;
    double start_intrinsic;
    double end_intrinsic;
    uint32_t first_row;
    uint32_t last_row;
};

#define BOX_NETWORK_PARAMETERS \
    const double *lengths, size_t length_count, const double *headings, size_t heading_count, \
    const uint32_t *flags, size_t flag_count, const uint32_t *from, size_t from_count, \
    const uint32_t *to, size_t to_count, const uint32_t *from_side, size_t from_side_count, \
    const uint32_t *to_side, size_t to_side_count, const uint32_t *forward, size_t forward_count, \
    const uint32_t *backward, size_t backward_count, const uint32_t *window_counts, size_t window_count_count, \
    const uint32_t *window_firsts, size_t window_first_count, const uint32_t *window_lasts, size_t window_last_count

/* ---- Network and routes. An element or side that the network does not have is unknown and not refused. Routes use the
   relations that are open at the minute, which may be any. */

/* The checks that every call on a network makes. Refuses with 1 to 5, 16. */
uint32_t box_check_network(BOX_NETWORK_PARAMETERS);

/* *cost: the cheapest route's, in metres. BOX_NONE where there is none or a side is unknown. Refuses with 1 to 5,
   16. */
uint32_t box_shortest_path_distance(BOX_NETWORK_PARAMETERS, uint32_t minute, uint32_t start_element,
    uint32_t start_side, uint32_t goal_element, uint32_t goal_side, double *cost);

/* *cost as above, and the route's *count states from start to goal: 4 times element, plus 2 times side, plus 1 if
   reached from another element. BOX_NONE as above. Refuses with 1 to 5, 16, 15. */
uint32_t box_shortest_path_route(BOX_NETWORK_PARAMETERS, uint32_t minute, uint32_t start_element, uint32_t start_side,
    uint32_t goal_element, uint32_t goal_side, uint32_t *states, size_t state_room, double *cost, size_t *count);

/* *consistent: 1 if elements a, b, c can be passed in this order without turning round on b, or two neighbours are
   equal; otherwise 0. Refuses with 1 to 5, 16. */
uint32_t box_triple_is_consistent(BOX_NETWORK_PARAMETERS, uint32_t minute, uint32_t a, uint32_t b, uint32_t c,
    uint32_t *consistent);

/* ---- Journal. A row stands for each fix that was fed and not struck, numbered from 0. */

/* An empty journal, whatever the words were: word 0. Refuses with 12, an empty slice. */
uint32_t box_open(uint32_t *journal, size_t journal_words);

/* The predecessor of the next fix: *row, the latest with a finite score, and how many *candidates it has. A fix of n
   candidates that comes with n distances for each of them is never refused for their number. BOX_NONE where no row has a
   finite score: a fix then comes with none. Refuses with 7. */
uint32_t box_predecessor(const uint32_t *journal, size_t journal_words, uint32_t *row, size_t *candidates);

/* One more row: its record in the words past the used ones, then word 0. A candidate is an element, an intrinsic (0 to
   1 from side 0, sign bit clear), near an end (1) or not (0), and the log of its emission. A fix may have none: a row
   stands for it, too. Its minute is not below that of the last row, be that one empty or not. `distances` has one for
   each pair of a candidate of the predecessor (outer) and an own one (inner); box_predecessor tells which row that is.
   Without one, or without candidates, there are none. Refuses with 1 to 5, 16, 6 to 10, 17, 11, 12. */
uint32_t box_feed(BOX_NETWORK_PARAMETERS, double beta, double scale, uint32_t *journal, size_t journal_words,
    uint32_t minute, const uint32_t *elements, size_t element_count, const double *intrinsics, size_t intrinsic_count,
    const uint32_t *near_flags, size_t near_count, const double *raw_logs, size_t raw_log_count,
    const double *distances, size_t distance_count);

/* The last `rows` rows, empty ones counted, no longer stand: word 0. Refuses with 7, 13. */
uint32_t box_strike(uint32_t *journal, size_t journal_words, uint32_t rows);

/* The best path: *count pairs of a row and the number of its candidate, in row order, and its *score. BOX_NONE where no
   row has a finite score. Refuses with 7, 15. */
uint32_t box_close(const uint32_t *journal, size_t journal_words, uint32_t *rows, size_t row_room,
    uint32_t *candidates, size_t candidate_room, double *score, size_t *count);

/* A row as it was fed, with each candidate's parent (a candidate of the predecessor, or BOX_NO_PARENT) and score:
   *candidates entries in six slices, *candidates times *predecessor_candidates distances, and its *minute. Refuses with
   7, 13, 15. */
uint32_t box_read_row(const uint32_t *journal, size_t journal_words, uint32_t row,
    uint32_t *elements, size_t element_room, double *intrinsics, size_t intrinsic_room,
    uint32_t *near_flags, size_t near_room, double *raw_logs, size_t raw_log_room,
    uint32_t *parents, size_t parent_room, double *scores, size_t score_room,
    double *distances, size_t distance_room, size_t *candidates, size_t *predecessor_candidates, uint32_t *minute);

/* A row with room for all that box_read_row answers: `count` entries in six fields, and count times predecessor_count
   distances. */
struct box_row {
    size_t count;
    size_t predecessor_count;
    uint32_t minute;
    uint32_t elements[BOX_MAX_CANDIDATES];
    double intrinsics[BOX_MAX_CANDIDATES];
    uint32_t near_flags[BOX_MAX_CANDIDATES];
    double raw_logs[BOX_MAX_CANDIDATES];
    uint32_t parents[BOX_MAX_CANDIDATES];
    double scores[BOX_MAX_CANDIDATES];
    double distances[BOX_MAX_STEPS];
};

/* g++ -Wshadow takes a function with a structure's name for a mistake. */
#if defined(__GNUC__) && defined(__cplusplus)
#pragma GCC diagnostic push
#pragma GCC diagnostic ignored "-Wshadow"
#endif

/* box_read_row into a `struct box_row`, which holds any row that stands. Refuses with 7, 13. */
static inline uint32_t box_row(const uint32_t *journal, size_t journal_words, uint32_t row, struct box_row *out) {
    return box_read_row(journal, journal_words, row, out->elements, BOX_MAX_CANDIDATES, out->intrinsics,
        BOX_MAX_CANDIDATES, out->near_flags, BOX_MAX_CANDIDATES, out->raw_logs, BOX_MAX_CANDIDATES, out->parents,
        BOX_MAX_CANDIDATES, out->scores, BOX_MAX_CANDIDATES, out->distances, BOX_MAX_STEPS, &out->count,
        &out->predecessor_count, &out->minute);
}

#if defined(__GNUC__) && defined(__cplusplus)
#pragma GCC diagnostic pop
#endif

/* The possible steps into a row: *count entries of predecessor row, its candidate, the row, its candidate (outer) and
   the step's score, BOX_MIN_STEP to 0. Refuses with 1 to 5, 16, 6, 7, 9, 13, 15. */
uint32_t box_list_steps(BOX_NETWORK_PARAMETERS, double beta, double scale, const uint32_t *journal,
    size_t journal_words, uint32_t row, uint32_t *predecessor_rows, size_t predecessor_row_room,
    uint32_t *predecessor_candidates, size_t predecessor_candidate_room, uint32_t *rows, size_t row_room,
    uint32_t *candidates, size_t candidate_room, double *steps, size_t step_room, size_t *count);

/* Whether feeding with this network and these settings can have written a journal, say one from another cab. BOX_DONE
   where the words of each row are those that feeding the fix it records would write: exactly then some accepted fixes
   and strikes from opening leave the used words. BOX_DIFFERS where they are not: *row, the first such row. The words
   past the used ones are not looked at. Refuses with 1 to 5, 16, 6, 7, 9. */
uint32_t box_replay(BOX_NETWORK_PARAMETERS, double beta, double scale, const uint32_t *journal, size_t journal_words,
    uint32_t *row);

/* ---- Segments. */

/* The best path as *count segments, with those that bridge the gaps between elements; 0 where there is no path. A
   bridge uses the relations open at the minute of the first row of the segment it leads to. Refuses with 1 to 5, 16, 7,
   9, 15. */
uint32_t box_build_path(BOX_NETWORK_PARAMETERS, const uint32_t *journal, size_t journal_words,
    struct box_segment *segments, size_t segment_room, size_t *count);

/* Takes short excursions to other elements out of the list: *left segments come first, the entries past them are zero.
   *decided decisions of six words: the element, the rows' span, how many segments were removed (up to 3), and their
   elements, 0 past them. `decisions` needs six words for each segment of the list. Refuses with 14, 15. */
uint32_t box_remove_oscillations(struct box_segment *segments, size_t segment_count, uint32_t *decisions,
    size_t decision_words, size_t *left, size_t *decided);

#undef BOX_NETWORK_PARAMETERS

#ifdef __cplusplus
}
#endif

#endif
