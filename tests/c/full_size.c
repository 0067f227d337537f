/* The four calls at full size from C: T7 to T9 on samples/city.table, whose 2,112 rows are more than the byte entry points take.
 * Usage: full_size samples/city.table */
#include "zone_outliner.h"
#include <stdio.h>
#include <string.h>

enum { ROWS = 2112, SLOTS = 30, PLACES = 8, RINGS = 8, RING_EDGES = 32 };

#define SLICE(array) (array), sizeof(array) / sizeof *(array)
#define COUNT(array) (sizeof(array) / sizeof *(array))

/* A hexagon and the six around it. */
static const uint64_t centre = 0x8928308280fffff;
static const uint64_t around[6] = {0x89283082877ffff, 0x8928308283bffff, 0x89283082807ffff,
                                   0x89283082803ffff, 0x8928308280bffff, 0x89283082873ffff};

static struct {
    uint64_t edges[ROWS];
    uint32_t reverse[ROWS];
    double area[ROWS];
} table;

struct state {
    uint32_t head[2];
    uint64_t cells[PLACES];
    uint32_t parent[PLACES], rank[PLACES], cell_mark[PLACES];
    uint32_t slot_row[SLOTS], slot_cell[SLOTS], prev[SLOTS], next[SLOTS];
    uint32_t row_slot[ROWS], row_mark[ROWS];
};

struct output {
    uint32_t start[RINGS], size[RINGS], group[RINGS];
    double ring_area[RINGS];
    uint32_t ring_edges[RING_EDGES];
    uint64_t summary[4];
};

/* The slices of the table, of a state with so many slots, and of the outputs, in the order of the calls. */
#define TABLE SLICE(table.edges), SLICE(table.reverse), SLICE(table.area)
#define PLACES_OF(s) SLICE((s)->head), SLICE((s)->cells), SLICE((s)->parent), SLICE((s)->rank), SLICE((s)->cell_mark)
#define SLOTS_OF(s, n) (s)->slot_row, (n), (s)->slot_cell, (n), (s)->prev, (n), (s)->next, (n)
#define ROWS_OF(s) SLICE((s)->row_slot), SLICE((s)->row_mark)
#define STATE(s, n) PLACES_OF(s), SLOTS_OF(s, n), ROWS_OF(s)
#define OUTPUT(o) SLICE((o)->start), SLICE((o)->size), SLICE((o)->group), SLICE((o)->ring_area), SLICE((o)->ring_edges)

static uint64_t open_state(struct state *s, size_t mode) { return zo_open(TABLE, STATE(s, SLOTS), mode); }

static uint64_t offer(struct state *s, uint64_t cell) { return zo_offer(TABLE, STATE(s, SLOTS), cell); }

static uint64_t read_out(struct state *s, struct output *o) { return zo_read_out(TABLE, STATE(s, SLOTS), OUTPUT(o), SLICE(o->summary)); }

static uint64_t dissolve(struct state *s, size_t slots, const uint64_t *list, size_t length, struct output *o) {
    return zo_dissolve(TABLE, STATE(s, slots), list, length, OUTPUT(o), SLICE(o->summary), 2);
}

static int checks, failures;

static void check(int holds, const char *what) {
    checks++;
    if (!holds) {
        failures++;
        printf("FAILED  %s\n", what);
    }
}

static int refused(uint64_t result, uint32_t number, uint32_t index) {
    return zone_refusal(result) == number && zone_index(result) == index;
}

static int same(const void *a, const void *b, size_t size) { return memcmp(a, b, size) == 0; }

static int area_is(double area, uint64_t bits) { return same(&area, &bits, sizeof bits); }

/* Rows of 20 bytes, least byte first: edge u64, reverse's row u32, bits of the area term u64. */
static int read_table(const char *path) {
    FILE *file = fopen(path, "rb");
    size_t rows = 0;
    unsigned char row[20];
    if (file == NULL) return 0;
    while (rows < ROWS && fread(row, sizeof row, 1, file) == 1) {
        memcpy(&table.edges[rows], row, 8);
        memcpy(&table.reverse[rows], row + 8, 4);
        memcpy(&table.area[rows], row + 12, 8);
        rows++;
    }
    rows += fread(row, 1, 1, file);
    fclose(file);
    return rows == ROWS;
}

/* Opened, and read out with no cell. */
static void test_opening(void) {
    static struct state s, before;
    static struct output o;
    memset(&s, 7, sizeof s);
    memcpy(&before, &s, sizeof s);
    check(refused(open_state(&s, 3), 10, 0) && same(&s, &before, sizeof s), "a mode above 2 is refused by 10, and nothing is written");
    check(open_state(&s, 1) == 0 && s.head[0] == 1 && s.head[1] == 0 && s.cells[0] == 0, "open clears the state and keeps the mode");
    memset(&o, 7, sizeof o);
    check(read_out(&s, &o) == 0, "a newly opened state is read out");
    check(o.summary[0] == 0 && o.summary[1] == 0 && o.summary[2] == 0 && o.summary[3] == 0, "no cells: nothing");
    check(o.start[0] == 0x07070707, "what lies past the written part stays");
}

/* Six hexagons around an absent one, each offered twice; then the one in the middle. */
static void test_offers(struct state *s, struct output *o) {
    static struct state before;
    size_t i;
    check(open_state(s, 2) == 0, "open");
    for (i = 0; i < COUNT(around); i++) {
        check(offer(s, around[i]) == 0, "a cell is accepted");
        memcpy(&before, s, sizeof before);
        check(refused(offer(s, around[i]), 3, (uint32_t)i + 1) && same(s, &before, sizeof before),
              "a replay is refused by 3, and nothing is written");
    }
    check(read_out(s, o) == 0 && same(s, &before, sizeof before), "read out leaves the state");
    check(o->summary[0] == 2 && o->summary[1] == 1 && o->summary[2] == 2, "one polygon with a hole");
    check(o->summary[3] == 0x3e5441fddeef6000 && area_is(o->ring_area[0], o->summary[3]), "the first outer area");
    check(o->size[0] == 18 && o->size[1] == 6 && o->start[1] == 18 && o->group[0] == 0 && o->group[1] == 0, "rings of 18 and 6");
    check(offer(s, centre) == 0, "the centre is accepted");
    check(read_out(s, o) == 0 && o->summary[2] == 1 && o->size[0] == 18, "one ring of 18 is left");
}

/* The list at once leaves the same; with one slot fewer its last cell has no room. */
static void test_dissolve(const struct state *standing, const struct output *shown) {
    static struct state s, opened;
    static struct output o, before;
    uint64_t seven[7];
    memcpy(seven, around, sizeof around);
    seven[6] = centre;
    memset(&s, 7, sizeof s);
    memcpy(&o, shown, sizeof o);
    memset(o.summary, 7, sizeof o.summary);
    check(dissolve(&s, SLOTS, seven, COUNT(seven), &o) == 0, "the list is dissolved");
    check(same(s.head, standing->head, sizeof s.head) && same(s.next, standing->next, sizeof s.next) &&
              same(s.parent, standing->parent, sizeof s.parent),
          "as if the cells were offered");
    check(same(&o, shown, sizeof o), "and read out");

    memcpy(&before, &o, sizeof o);
    check(refused(dissolve(&s, SLOTS - 1, seven, COUNT(seven), &o), 7, 6), "29 slots are refused by 7");
    check(zo_open(TABLE, STATE(&opened, SLOTS - 1), 0) == 0 && same(s.next, opened.next, (SLOTS - 1) * sizeof s.next[0]) &&
              same(s.row_slot, opened.row_slot, sizeof s.row_slot),
          "the work memory is newly opened");
    check(same(&o, &before, sizeof o), "the outputs are untouched");

    check(dissolve(&s, SLOTS, around, 2, &o) == 0 && o.summary[2] == 1 && o.size[0] == 10 && area_is(o.ring_area[0], 0x3e3726950b290000),
          "two hexagons: one ring of 10");
}

static void test_refusals(struct state *s) {
    static struct output o, before;
    const uint64_t bad[3] = {around[0], around[1], 7}, elsewhere = 0x8001fffffffffff;
    memcpy(&before, &o, sizeof o);
    check(refused(dissolve(s, SLOTS, bad, COUNT(bad), &o), 2, 2), "a cell that isn't valid is refused by 2");
    check(refused(dissolve(s, SLOTS, &elsewhere, 1, &o), 4, 0), "a coarser cell is refused by 4 in even mode");
    check(refused(zo_read_out(TABLE, STATE(s, SLOTS), OUTPUT(&o), o.summary, 3), 10, 0), "a summary of three numbers is refused by 10");
    check(refused(
              zo_read_out(TABLE, STATE(s, SLOTS), o.start, 0, o.size, 0, o.group, 0, o.ring_area, 0, SLICE(o.ring_edges), SLICE(o.summary)),
              10, 0),
          "no room for a ring is refused by 10");
    s->row_mark[5] = 1;
    check(refused(offer(s, around[2]), 9, 0) && refused(read_out(s, &o), 9, 0), "a damaged state is refused by 9");
    s->row_mark[5] = 0;
    table.reverse[17] = 17;
    check(refused(offer(s, around[2]), 1, 17), "a bad row is refused by 1");
    check(same(&o, &before, sizeof o), "refused calls write no output");
}

int main(int argc, char **argv) {
    static struct state s;
    static struct output o;
    if (argc != 2 || !read_table(argv[1])) {
        printf("usage: full_size samples/city.table (%d rows)\n", ROWS);
        return 2;
    }
    test_opening();
    test_offers(&s, &o);
    test_dissolve(&s, &o);
    test_refusals(&s);
    printf("%d checks, %d failed\n", checks, failures);
    return failures != 0;
}
