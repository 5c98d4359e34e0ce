/* The header, included twice, and the layout that the archive is built for. Compiled as C and as C++. */
#include "box.h"
#include "box.h"

#define HOLDS(name, fact) typedef char name[(fact) ? 1 : -1]

HOLDS(numbers, sizeof(uint32_t) == 4 && sizeof(double) == 8 && sizeof(size_t) == 8);
HOLDS(segment, sizeof(struct box_segment) == 32);
HOLDS(element, offsetof(struct box_segment, element) == 0);
HOLDS(start, offsetof(struct box_segment, start_intrinsic) == 8);
HOLDS(end, offsetof(struct box_segment, end_intrinsic) == 16);
HOLDS(first_row, offsetof(struct box_segment, first_row) == 24);
HOLDS(last_row, offsetof(struct box_segment, last_row) == 28);
HOLDS(record, BOX_RECORD_WORDS(0, 0) == 5 && BOX_RECORD_WORDS(1, 0) == 12 && BOX_RECORD_WORDS(2, 3) == 31);
HOLDS(minute, BOX_MAX_MINUTE == 0xFFFFFFF);

uint32_t check(struct box_network network);
uint32_t read_row(const uint32_t *journal, size_t journal_words, struct box_row *row);

uint32_t check(struct box_network network) {
    return box_check_network(BOX_NETWORK(network));
}

/* A structure and a function of one name. */
uint32_t read_row(const uint32_t *journal, size_t journal_words, struct box_row *row) {
    return box_row(journal, journal_words, 0, row);
}
