#define _DEFAULT_SOURCE
#include "lent.h"

#include <stdio.h>
#include <stdlib.h>
#include <string.h>
#include <sys/mman.h>
#include <unistd.h>

enum { PIECES = 16, ROOMY = 1 << 17, FRINGE = 64, PATTERN = 0xa5 };

struct piece {
    uint8_t *first, *end;      /* the pages between the two that nobody may touch */
    uint8_t *memory, *fringe;  /* what is lent, and the bytes beside it on the side that has no such page */
    size_t size;
    enum purpose purpose;
    uint8_t before[ROOMY];     /* what is lent, as it was when the call began */
};

static struct piece pieces[PIECES];
static size_t lent;
static enum placement placed;

static void map_piece(struct piece *piece) {
    size_t page = (size_t)sysconf(_SC_PAGESIZE);
    size_t inside = (ROOMY + page - 1) / page * page;
    uint8_t *all = mmap(NULL, inside + 2 * page, PROT_NONE, MAP_PRIVATE | MAP_ANONYMOUS, -1, 0);
    if (all == MAP_FAILED || mprotect(all + page, inside, PROT_READ | PROT_WRITE) != 0) {
        perror("lent: no memory between guard pages");
        exit(2);
    }
    piece->first = all + page;
    piece->end = piece->first + inside;
}

void lend_afresh(enum placement placement) {
    lent = 0;
    placed = placement;
}

void *lend(enum purpose purpose, size_t size) {
    if (lent == PIECES || size > ROOMY - FRINGE) {
        fprintf(stderr, "lent: a test lends more than %d pieces or %d bytes\n", PIECES, ROOMY - FRINGE);
        exit(2);
    }
    struct piece *piece = &pieces[lent++];
    if (piece->first == NULL) map_piece(piece);
    int first = placed == AGAINST_BEGINNING;
    piece->memory = first ? piece->first : piece->end - size;
    piece->fringe = first ? piece->memory + size : piece->memory - FRINGE;
    piece->size = size;
    piece->purpose = purpose;
    memset(first ? piece->memory : piece->fringe, PATTERN, size + FRINGE);
    return size == 0 && placed == EMPTY_AS_NULL ? NULL : piece->memory;
}

static void *lend_filled(enum purpose purpose, const void *from, size_t size) {
    void *memory = lend(purpose, size);
    if (size != 0) memcpy(memory, from, size);
    return memory;
}

struct lent_bytes lend_bytes(const uint8_t *bytes, size_t length) {
    struct lent_bytes list = { lend_filled(TO_READ, bytes, length), length };
    return list;
}

struct lent_numbers lend_numbers(const double *numbers, size_t count) {
    struct lent_numbers list = { lend_filled(TO_READ, numbers, count * sizeof *numbers), count };
    return list;
}

const uint32_t *lend_counts(const uint32_t *counts, size_t count) {
    return lend_filled(TO_READ, counts, count * sizeof *counts);
}

double *lend_number(void) {
    return lend_places(1);
}

uint32_t *lend_count(void) {
    return lend(FOR_ANSWER, sizeof(uint32_t));
}

double *lend_places(size_t count) {
    return lend(FOR_ANSWER, count * sizeof(double));
}

double *lend_numbers_in_hand(const double *numbers, size_t count) {
    return lend_filled(AS_ROOM, numbers, count * sizeof *numbers);
}

uint32_t *lend_counts_in_hand(const uint32_t *counts, size_t count) {
    return lend_filled(AS_ROOM, counts, count * sizeof *counts);
}

int lent_something_empty(void) {
    for (size_t i = 0; i < lent; i++)
        if (pieces[i].size == 0) return 1;
    return 0;
}

void remember_lent(void) {
    for (size_t i = 0; i < lent; i++) memcpy(pieces[i].before, pieces[i].memory, pieces[i].size);
}

static int fringe_stays(const struct piece *piece) {
    for (size_t i = 0; i < FRINGE; i++)
        if (piece->fringe[i] != PATTERN) return 0;
    return 1;
}

static const char *wrong_with(const struct piece *piece, int accepted) {
    int stays = memcmp(piece->before, piece->memory, piece->size) == 0;
    if (!fringe_stays(piece)) return "bytes beside the lent memory changed";
    if (piece->purpose == TO_READ && !stays) return "memory lent to be read changed";
    if (!accepted && !stays) return "a refused call changed lent memory";
    if (accepted && stays && piece->purpose == FOR_ANSWER) return "an accepted call left its answer unwritten";
    return NULL;
}

const char *wrong_with_lent(int accepted) {
    const char *wrong = NULL;
    for (size_t i = 0; i < lent && wrong == NULL; i++) wrong = wrong_with(&pieces[i], accepted);
    return wrong;
}

static const struct piece *written_piece(size_t k) {
    for (size_t i = 0; i < lent; i++)
        if (pieces[i].purpose != TO_READ && k-- == 0) return &pieces[i];
    fprintf(stderr, "lent: a test reads an answer that it did not lend\n");
    exit(2);
}

const uint8_t *answered_bytes(size_t k) {
    return written_piece(k)->memory;
}

const double *answered_numbers(size_t k) {
    return (const double *)(const void *)answered_bytes(k);
}

const uint32_t *answered_counts(size_t k) {
    return (const uint32_t *)(const void *)answered_bytes(k);
}

uint32_t answered_count(size_t k) {
    return answered_counts(k)[0];
}

int answered_bytes_stay(size_t k, size_t from) {
    const struct piece *piece = written_piece(k);
    return memcmp(piece->before + from, piece->memory + from, piece->size - from) == 0;
}

int answered_numbers_stay(size_t k, size_t from) {
    return answered_bytes_stay(k, from * sizeof(double));
}

int answered_stays(size_t k) {
    return answered_bytes_stay(k, 0);
}
