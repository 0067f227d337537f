/* The zone outliner: sets of H3 cells dissolved into closed outlines.
 *
 * The static library target/staticlib/libhost.a (made by `bin/static_library host`) has two faces:
 *
 *   zone_*   both ways in on byte slices, for small tables: at most 1,024 rows, 1,024 slots, 256 places and 256 cells;
 *   zo_*     the four calls at full size, on slices of numbers: 2 to 65,536 rows, 1 to 65,536 slots, 1 to 16,384 places, and a list of
 *            any length.
 *
 * Each function is proved: it takes any bytes, reads and writes within the lengths, ends, and either does its work or gives one numbered
 * refusal. Nothing is allocated and nothing is kept between calls but what lies in the caller's memory. A call takes less than 1 MB of
 * stack.
 *
 * A slice is two parameters, a pointer and a length in elements. A pointer must not be null and must be aligned for its type, also where
 * the length is 0; no slice that is written may overlap another. x86-64 with the System V calling convention; little-endian.
 *
 * THE RESULT of every function is a uint64_t: 0 when the call was carried out, else number * 2^32 + index.
 *
 *   number  given when                                                    index
 *   10      lengths disagree, a capacity is out of its range, a mode is   0
 *           above 2, or an output is too short for what must be written
 *    1      the table breaks a rule (see below)                           0 for a bad row count or unequal resolutions, else the
 *                                                                         lowest bad row
 *    9      the state breaks a rule (offer, read out)                     0
 *    2      a cell isn't valid                                            lowest index
 *    3      equal cells                                                   lowest index of a cell with an equal before it
 *    4      a cell is finer than the target, or in even mode of any       lowest index
 *           other resolution
 *    3      in mixed mode one cell lies under another                     lowest index of a cell under another
 *    8      more cells than places                                        0
 *    5      an edge of a cell's outline isn't in the table                index of the cell
 *    6      an outline names an edge twice                                index of the cell
 *    7      free slots are fewer than the outline's edges                 index of the cell
 *
 * They are tested in this order, but an output too short last. An offer's index is the number of cells already held; where held cells lie
 * under the offered one, it is the lowest place of such a cell. An index past 2^32 - 1, which only a list of more cells has, is given as
 * 2^32 - 1. A refused call writes nothing, but that zo_dissolve refused by 5, 6, 7 or for a short output leaves its work memory newly
 * opened.
 *
 * THE TABLE: 2 to 65,536 rows, strictly ascending valid H3 edges (mode 2) of one resolution, the target, at which outlines are drawn; for
 * each row the row of its reverse, which names this row back and isn't the row itself; and a finite area term.
 *
 * MODES: 0 even, every cell has the target's resolution; 1 mixed, coarser cells too, none under another; 2 names none and means even. */
#ifndef ZONE_OUTLINER_H
#define ZONE_OUTLINER_H

#include <stddef.h>
#include <stdint.h>

#ifdef __cplusplus
extern "C" {
#endif

/* What a result says. */
static inline uint32_t zone_refusal(uint64_t result) { return (uint32_t)(result >> 32); }
static inline uint32_t zone_index(uint64_t result) { return (uint32_t)result; }

/* ---- both ways in on byte slices; numbers are little-endian
 *
 * table   rows of 20 bytes: edge u64, reverse row u32, the bits of the area term u64
 * cells   u64 each
 * state   eleven columns, each whole, in this order: head (mode, held cells); cells (u64), parent, rank and cell_mark, one for each place;
 *         slot_row, slot_cell, prev and next, one for each slot; row_slot and row_mark, one for each row. All but the cells are u32:
 *         8 + 20 * places + 16 * slots + 8 * rows bytes
 * out     kind u32 (0 nothing, 1 closed, 2 outline), polygons u32, rings u32, edges u32, bits of the first outer area u64; then for each
 *         ring start u32, length u32, group u32, bits of the area u64; then the edge rows, u32 each: 24 + 20 * rings + 4 * edges bytes,
 *         where no more rings or edges can stand than the table has rows. For nothing and closed the 24 bytes have 0 after the kind.
 *         A NaN's bits are 7FF8000000000000. What lies past the written part stays.
 *
 * Refused by 10 before everything else: more than 1,024 rows, 1,024 slots, 256 places or 256 cells; a table or a list that is no whole
 * number of records; a state of another length. Then as the calls at full size; last of all by 10 where `out` is too short. */

/* Dissolves a list of cells in work memory of its own. */
uint64_t zone_dissolve(const uint8_t *table, size_t table_length, const uint8_t *cells, size_t cells_length, uint8_t *out, size_t out_length,
                       uint32_t mode, uint32_t slots, uint32_t places);

/* Works on a standing state: call 0 opens with the mode `value`, 1 offers the cell `value`, 2 reads out and reads no `value`; any other is
 * refused by 10. Only call 2 writes `out`, only calls 0 and 1 write `state`. */
uint64_t zone_standing(const uint8_t *table, size_t table_length, uint8_t *state, size_t state_length, uint8_t *out, size_t out_length,
                       uint32_t slots, uint32_t places, uint32_t call, uint64_t value);

/* ---- the four calls at full size
 *
 * edges, reverse, area                   one for each row: the table
 * head                                   length 2: mode (0 or 1), number of held cells
 * cells, parent, rank, cell_mark         one for each place: the state's capacity for cells, 1 to 16,384
 * slot_row, slot_cell, prev, next        one for each slot: the pool, 1 to 65,536; as many as rows are always enough
 * row_slot, row_mark                     one for each row
 * start, size, group, ring_area          one for each ring that can be written, all of one length; half as many as rows are always enough
 * ring_edges                             the rows of all rings; half as many as rows are always enough
 * summary                                length 4, else refusal 10, tested first, and nothing is written: kind (0 nothing, 1 closed, 2 outline),
 *                                        polygons, rings, and the bits of the first outer area; for nothing and closed 0 after the kind. A
 *                                        NaN's bits are 7FF8000000000000
 *
 * Memory that is all 0 is a newly opened state of mode 0. Rings are listed polygon by polygon, a polygon's outer first; ring i has the
 * edges ring_edges[start[i]] to ring_edges[start[i] + size[i] - 1], from its lowest row on, and the rings of one polygon have one group, the
 * lowest place of its cells. What lies past the written part of an output stays. */

/* A newly opened state: refused by 10, 1. */
uint64_t zo_open(const uint64_t *edges, size_t edges_length, const uint32_t *reverse, size_t reverse_length, const double *area,
                 size_t area_length, uint32_t *head, size_t head_length, uint64_t *cells, size_t cells_length, uint32_t *parent,
                 size_t parent_length, uint32_t *rank, size_t rank_length, uint32_t *cell_mark, size_t cell_mark_length, uint32_t *slot_row,
                 size_t slot_row_length, uint32_t *slot_cell, size_t slot_cell_length, uint32_t *prev, size_t prev_length, uint32_t *next,
                 size_t next_length, uint32_t *row_slot, size_t row_slot_length, uint32_t *row_mark, size_t row_mark_length, size_t mode);

/* One more cell: refused by 10, 1, 9, 2, 3, 4, 3, 8, 5, 6, 7. */
uint64_t zo_offer(const uint64_t *edges, size_t edges_length, const uint32_t *reverse, size_t reverse_length, const double *area,
                  size_t area_length, uint32_t *head, size_t head_length, uint64_t *cells, size_t cells_length, uint32_t *parent,
                  size_t parent_length, uint32_t *rank, size_t rank_length, uint32_t *cell_mark, size_t cell_mark_length, uint32_t *slot_row,
                  size_t slot_row_length, uint32_t *slot_cell, size_t slot_cell_length, uint32_t *prev, size_t prev_length, uint32_t *next,
                  size_t next_length, uint32_t *row_slot, size_t row_slot_length, uint32_t *row_mark, size_t row_mark_length, uint64_t cell);

/* What stands: refused by 10, 1, 9, and 10 for a short output. The state stays as it was: its marks serve as scratch and are 0 again. */
uint64_t zo_read_out(const uint64_t *edges, size_t edges_length, const uint32_t *reverse, size_t reverse_length, const double *area,
                     size_t area_length, const uint32_t *head, size_t head_length, const uint64_t *cells, size_t cells_length,
                     const uint32_t *parent, size_t parent_length, const uint32_t *rank, size_t rank_length, uint32_t *cell_mark,
                     size_t cell_mark_length, const uint32_t *slot_row, size_t slot_row_length, const uint32_t *slot_cell,
                     size_t slot_cell_length, const uint32_t *prev, size_t prev_length, const uint32_t *next, size_t next_length,
                     const uint32_t *row_slot, size_t row_slot_length, uint32_t *row_mark, size_t row_mark_length, uint32_t *start,
                     size_t start_length, uint32_t *size, size_t size_length, uint32_t *group, size_t group_length, double *ring_area,
                     size_t ring_area_length, uint32_t *ring_edges, size_t ring_edges_length, uint64_t *summary, size_t summary_length);

/* A whole list of cells: refused by 10, 1, then 2, 3, 4, 3, 8 over the list, then 5, 6, 7 for each cell in turn, and 10 for a short output.
 * The eleven slices of the state are work memory: they may hold anything, and hold the state of these cells afterwards. */
uint64_t zo_dissolve(const uint64_t *edges, size_t edges_length, const uint32_t *reverse, size_t reverse_length, const double *area,
                     size_t area_length, uint32_t *head, size_t head_length, uint64_t *cells, size_t cells_length, uint32_t *parent,
                     size_t parent_length, uint32_t *rank, size_t rank_length, uint32_t *cell_mark, size_t cell_mark_length,
                     uint32_t *slot_row, size_t slot_row_length, uint32_t *slot_cell, size_t slot_cell_length, uint32_t *prev,
                     size_t prev_length, uint32_t *next, size_t next_length, uint32_t *row_slot, size_t row_slot_length, uint32_t *row_mark,
                     size_t row_mark_length, const uint64_t *list, size_t list_length, uint32_t *start, size_t start_length, uint32_t *size,
                     size_t size_length, uint32_t *group, size_t group_length, double *ring_area, size_t ring_area_length,
                     uint32_t *ring_edges, size_t ring_edges_length, uint64_t *summary, size_t summary_length, size_t mode);

#ifdef __cplusplus
}
#endif

#endif
