/* How much stack each call uses: it runs on a stack of its own that was painted before, and what it left unpainted is counted,
   with the arguments. A network of 1,024 elements with four windows a relation, and fixes of 16 candidates are handed to it.
   Exits with 1 where a call is refused or uses more than BOX_STACK_BYTES. Link with -Wl,-z,now, so that no call pays for
   finding memset or memcpy. */
#define _XOPEN_SOURCE 600
#include "box.h"

#include <stdio.h>
#include <string.h>
#include <ucontext.h>

enum { N = BOX_MAX_ELEMENTS, C = BOX_MAX_CANDIDATES, S = BOX_MAX_STEPS, W = BOX_MAX_WINDOWS, WORDS = 4096, SEGMENTS = 2048, PAINT = 0xA5 };

static double lengths[N], headings[4 * N];
static uint32_t flags[N], from[N], to[N], from_side[N], to_side[N], ways[N], window_counts[N], window_firsts[W * N], window_lasts[W * N];
static const struct box_network network = {N, lengths, headings, flags, N - 1, from, to, from_side, to_side, ways, ways,
    window_counts, window_firsts, window_lasts};

static uint32_t journal[WORDS], elements[C], near_flags[C], numbers[5][4 * N], decisions[6 * SEGMENTS], status;
static double intrinsics[C], raw_logs[C], distances[S], floats[4][S], value;
static struct box_segment segments[SEGMENTS];
static size_t pairs, count, second;

static void check(void) { status = box_check_network(BOX_NETWORK(network)); }

static void distance(void) { status = box_shortest_path_distance(BOX_NETWORK(network), 0, 0, 0, N - 1, 1, &value); }

static void route(void) {
    status = box_shortest_path_route(BOX_NETWORK(network), 0, 0, 0, N - 1, 1, numbers[0], 4 * N, &value, &count);
}

static void triple(void) { status = box_triple_is_consistent(BOX_NETWORK(network), 0, 0, 1, 2, numbers[0]); }

static void open_journal(void) { status = box_open(journal, WORDS); }

static void feed(void) {
    status = box_feed(BOX_NETWORK(network), 10, 30, journal, WORDS, 0, elements, C, intrinsics, C, near_flags, C, raw_logs, C,
        distances, pairs);
}

static void predecessor(void) { status = box_predecessor(journal, WORDS, numbers[0], &count); }

static void strike(void) { status = box_strike(journal, WORDS, 0); }

static void close_journal(void) { status = box_close(journal, WORDS, numbers[0], S, numbers[1], S, &value, &count); }

static void read_row(void) {
    status = box_read_row(journal, WORDS, 1, numbers[0], C, floats[0], C, numbers[1], C, floats[1], C, numbers[2], C, floats[2], C,
        floats[3], S, &count, &second, numbers[3]);
}

static void list_steps(void) {
    status = box_list_steps(BOX_NETWORK(network), 10, 30, journal, WORDS, 1, numbers[0], S, numbers[1], S, numbers[2], S,
        numbers[3], S, floats[0], S, &count);
}

static void replay(void) { status = box_replay(BOX_NETWORK(network), 10, 30, journal, WORDS, numbers[0]); }

static void build(void) { status = box_build_path(BOX_NETWORK(network), journal, WORDS, segments, SEGMENTS, &count); }

static void collapse(void) {
    status = box_remove_oscillations(segments, count, decisions, 6 * SEGMENTS, &count, &second);
}

static void nothing(void) { status = 0; }

/* ---- measuring */

static unsigned char stack[1 << 20];
static ucontext_t back, there;

static size_t used_by(void (*call)(void)) {
    size_t untouched = 0;
    memset(stack, PAINT, sizeof stack);
    getcontext(&there);
    there.uc_stack.ss_sp = stack;
    there.uc_stack.ss_size = sizeof stack;
    there.uc_link = &back;
    makecontext(&there, call, 0);
    swapcontext(&back, &there);
    while (untouched < sizeof stack && stack[untouched] == PAINT) untouched++;
    return sizeof stack - untouched;
}

static int show(const char *name, void (*call)(void)) {
    size_t bytes = used_by(call);
    uint32_t answer = status;
    bytes -= used_by(nothing);
    printf("%-28s %6u bytes\n", name, (unsigned)bytes);
    if (answer != BOX_DONE) printf("%s: refused with %u\n", name, (unsigned)answer);
    return answer != BOX_DONE || bytes > BOX_STACK_BYTES;
}

/* A line of elements that are open at minute 0, and a fix with one candidate near an end, so that few of the pairs need a search. */
static void prepare(void) {
    for (uint32_t i = 0; i < N; i++) {
        lengths[i] = 10, flags[i] = 1, from[i] = i, to[i] = i + 1, from_side[i] = 1, to_side[i] = 0, ways[i] = 1, window_counts[i] = W;
    }
    for (uint32_t i = 0; i < W * N; i++) window_firsts[i] = 1 + i, window_lasts[i] = 2 + i;
    for (uint32_t i = 0; i < C; i++) elements[i] = 60 * i, near_flags[i] = i == 0, intrinsics[i] = 0.5, raw_logs[i] = -1.0 - i;
}

int main(void) {
    static const struct { const char *name; void (*call)(void); } calls[] = {
        {"box_check_network", check}, {"box_shortest_path_distance", distance}, {"box_shortest_path_route", route},
        {"box_triple_is_consistent", triple}, {"box_open", open_journal}, {"box_feed", feed}, {"box_predecessor", predecessor},
        {"box_strike", strike}, {"box_close", close_journal}, {"box_read_row", read_row}, {"box_list_steps", list_steps},
        {"box_replay", replay}, {"box_build_path", build}, {"box_remove_oscillations", collapse},
    };
    int wrong = 0;
    prepare();
    for (size_t i = 0; i < sizeof calls / sizeof calls[0]; i++) {
        if (calls[i].call == feed) { /* the second row, on a predecessor of 16 candidates */
            feed();
            pairs = S;
            for (uint32_t k = 0; k < C; k++) elements[k] += 7;
        }
        wrong |= show(calls[i].name, calls[i].call);
    }
    return wrong;
}
