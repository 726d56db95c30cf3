/* Polygons of warm-patch outlines, for the logger's firmware. docs/C.md says how to build and link the library, docs/RULES.md
   which polygon is the best one, docs/FORMAT.md has the records.

   Every function answers 0 where the call is accepted. Where it is refused, it answers minus the number of the refusal, and no
   memory of the caller's has changed.

   No function keeps a pointer, has state of its own or takes memory from a heap. Every pointer must be valid for as many places as the
   call says and aligned for its type, and must not be NULL, also where there are 0 places. What a call may write must overlap nothing else
   that is passed to it, and nothing else may change what is passed while the call runs. */

#ifndef POLYGON_H
#define POLYGON_H

#include <stdbool.h>
#include <stddef.h>
#include <stdint.h>

#ifdef __cplusplus
extern "C" {
#endif

/* A buffer of this many bytes has room for every record of a polygon. */
#define POLYGON_MOST_BYTES 743

/* A list of this many places has room for the vertices of every record. */
#define POLYGON_MOST_VERTICES 256

/* What a refused call answers. */
enum polygon_refusal {
    POLYGON_TOLERANCE = -4,      /* a top of 2^40 or more, or a bottom outside 1 to 2^20 */
    POLYGON_SHORT = -6,          /* fewer bytes than the record says, or too few for a head */
    POLYGON_KIND = -7,           /* a kind outside 1 to 5, or a record that is no chain record where one is asked for */
    POLYGON_POINT_OUTSIDE = -8,  /* a point outside columns and rows 0 to 1,023 */
    POLYGON_NO_CODE = -9,        /* no code begins the remaining bits */
    POLYGON_TRAILING = -10,      /* a set bit or a whole byte too many after the last code */
    POLYGON_LIST_SHORT = -23,    /* fewer places than vertices */
    POLYGON_BUFFER_SHORT = -25,  /* fewer bytes in the buffer than in the record */
    POLYGON_NO_USABLE = -26,     /* no polygon has codes of that kind within that tolerance */
    POLYGON_OVER_BUDGET = -27    /* every polygon of that kind takes more bits than the budget */
};

/* A point: its column and its row, counted from 0, rows downward. */
struct polygon_point {
    uint16_t col;
    uint16_t row;
};

/* What was written: the bytes of the record, and the bits of its codes, without head and padding. */
struct polygon_written {
    size_t bytes;
    size_t bits;
};

/* What was read: the kind of the record, the bytes that it takes, and the number of its vertices. */
struct polygon_reading {
    uint16_t kind;
    size_t bytes;
    size_t vertices;
};

/* Writes the record of the cheapest polygon: of those within a tolerance one of the fewest bits, and of these one of the least
   deviation.

   chain, chain_len    bytes that begin with a chain record (kind 4), the outline; later bytes are ignored
   kind                the kind of code of the record to write, 1 to 5
   pace                the measure: true for pace, false for line
   top, bottom         the tolerance, in square pels: top below 2^40, bottom 1 to 2^20
   buffer, buffer_len  takes the record
   written             takes the sizes of the record

   Answers 0: the record stands in the first written->bytes bytes of the buffer, and the bytes after it are as they were.
   Refused, by the first that holds: -7 (kind), then -6, -7, -8, -9 or -10 (the chain record), -4 (tolerance), -26 (no such polygon),
   -25 (buffer). Then buffer and written are as they were. With POLYGON_MOST_BYTES bytes in the buffer, -25 never comes. */
int32_t polygon_cheapest(const uint8_t *chain, size_t chain_len, uint16_t kind, bool pace, uint64_t top, uint64_t bottom, uint8_t *buffer,
                         size_t buffer_len, struct polygon_written *written);

/* Writes the record of the closest polygon: of those whose codes take at most a budget of bits one of the least deviation, and of
   these one of the fewest bits.

   chain, chain_len    bytes that begin with a chain record (kind 4), the outline; later bytes are ignored
   kind                the kind of code of the record to write, 1 to 5
   pace                the measure: true for pace, false for line
   budget              the most code bits
   buffer, buffer_len  takes the record
   written             takes the sizes of the record

   Answers 0: the record stands in the first written->bytes bytes of the buffer, and the bytes after it are as they were.
   Refused, by the first that holds: -7 (kind), then -6, -7, -8, -9 or -10 (the chain record), -26 (no polygon has codes of that
   kind), -27 (all take more bits), -25 (buffer). Then buffer and written are as they were. With POLYGON_MOST_BYTES bytes in the
   buffer, -25 never comes. */
int32_t polygon_closest(const uint8_t *chain, size_t chain_len, uint16_t kind, bool pace, uint16_t budget, uint8_t *buffer, size_t buffer_len,
                        struct polygon_written *written);

/* Reads the record that some bytes begin with, of kind 1 to 5.

   bytes, len    the bytes; those after the record are ignored
   list, places  takes the vertices, first to last
   reading       takes the kind, the bytes and the number of vertices

   Answers 0: the vertices stand in the first reading->vertices places of the list, and the places after them are as they were.
   Refused, by the first that holds: -6, -7, -8, -9 or -10 (the record), -23 (list). Then list and reading are as they were. With
   POLYGON_MOST_VERTICES places in the list, -23 never comes. */
int32_t polygon_read(const uint8_t *bytes, size_t len, struct polygon_point *list, size_t places, struct polygon_reading *reading);

#ifdef __cplusplus
}
#endif

#endif
