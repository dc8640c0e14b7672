/* Connectivity of closed, sphere-like triangle meshes: the calls of the proved library.
 *
 * A mesh has t triangles, t even, 2 to 65,536. Corners are 0 to 3t - 1; corner c is in triangle c / 3, and the next
 * corner goes 3k, 3k + 1, 3k + 2 and back to 3k. Table V (vs) holds a vertex number at each corner, table O (os) the
 * opposite corner. A string has one letter of C, L, E, R, S for each triangle, in the order of the walk from the gate.
 *
 * Every call comes to an end for every content and every length of what it is lent, and asks nothing more than C does:
 * a buffer is a pointer that is not null, aligned for its type, and the number of its entries, and a buffer that a call
 * may write overlaps no other. What does not fit is refused, by number and place. A refusal leaves the outputs as they
 * came. Where a call is done, entries of an output behind those that it writes keep their contents.
 *
 * The work space needs LAST_WORK_LEN(t) numbers. What it holds before a call has no influence. After every call it is
 * all zero, its whole length, except that the refusals 1, 2 and 16 to 18, and 8 of the record calls, do not touch it.
 */
#ifndef LAST_H
#define LAST_H

#include <stddef.h>
#include <stdint.h>

#ifdef __cplusplus
extern "C" {
#endif

/* The most triangles of a mesh. */
#define LAST_MOST_TRIANGLES 65536

/* For t triangles: entries of each of V and O, letters of a string, entries of a walk table, numbers of work space. */
#define LAST_TABLE_LEN(t) (3 * (size_t)(t))
#define LAST_STRING_LEN(t) ((size_t)(t))
#define LAST_WALK_LEN(t) ((size_t)(t))
#define LAST_WORK_LEN(t) (12 * (size_t)(t))

/* Bytes that are enough for the text of any record of t triangles; a text itself is shorter by up to 9. */
#define LAST_TEXT_LEN(t) ((size_t)(t) + 34)

/* The vertex count of an accepted mesh or string of t triangles. */
#define LAST_VERTEX_COUNT(t) ((uint32_t)(t) / 2 + 2)

/* The numbers of an answer. A place is 0 where none is named. */
enum last_number {
    LAST_DONE = 0,        /* place 0, with the counts */
    LAST_COUNT = 1,       /* t odd, under 2 or over 65,536; V and O unequal in length, or not a multiple of 3 */
    LAST_ROOM = 2,        /* an output, the work space or a table lent beside the input is too short */
    LAST_LETTER = 3,      /* a letter outside C, L, E, R, S; place: the first such */
    LAST_UNFINISHED = 4,  /* the string ends inside a word; place: t */
    LAST_EXTRA = 5,       /* letters follow the first word; place: the first of them */
    LAST_PINCH = 6,       /* a C stands before a word of width 2; place: the largest such position */
    LAST_WIDTH = 7,       /* the width is not 2 */
    LAST_GATE = 8,        /* the gate is not below 3t */
    LAST_VERTEX = 9,      /* a vertex number is not below v; place: the first corner */
    LAST_OPPOSITE = 10,   /* the opposite rule is broken; place: the first corner */
    LAST_EDGE = 11,       /* edge ends disagree; place: the first corner */
    LAST_TWICE = 12,      /* a vertex twice in a triangle; place: the first triangle */
    LAST_RING = 13,       /* a vertex is absent or its corners are not one swing ring; place: the least vertex */
    LAST_REACH = 14,      /* a triangle is not reached from the gate's; place: the least triangle */
    LAST_HANDLE = 15,     /* t differs from 2v - 4 */
    LAST_LINE = 16,       /* a record line malformed or missing; place: the first, 0 to 3, or 4 for extra bytes */
    LAST_FORM = 17,       /* the form is not 1 */
    LAST_LENGTH = 18      /* the length of sym differs from tri */
};

/* What a call answers. Done is number 0 with place 0; a refusal has a number, its place, and 0 in all else. What a call
 * does not answer is 0. */
struct last_answer {
    uint32_t number; /* an enum last_number */
    uint32_t place;
    uint32_t t;      /* triangles */
    uint32_t v;      /* vertices */
    uint32_t gate;   /* of last_read_record alone: the gate of the record */
    uint32_t length; /* of last_write_record alone: the bytes of the text */
};

/* Judges the tables of a mesh with v vertices from the gate corner. Done: the mesh is accepted, with t and v.
 * Refusals, in this order, each over the whole table before the next: 1, 2 (for the work space only), 8 to 15. */
struct last_answer last_check_mesh(const uint32_t *vs, size_t vs_len, const uint32_t *os, size_t os_len, uint32_t v,
                                   uint32_t gate, uint32_t *work, size_t work_len);

/* Writes the string and the walk table of a mesh from the gate corner: at k the letter of the k-th triangle of the
 * walk, and the caller's corner at which the walk met it. t entries of each. Done: t and v. Refusals: 1, 2, 8 to 15. */
struct last_answer last_write_string(const uint32_t *vs, size_t vs_len, const uint32_t *os, size_t os_len, uint32_t v,
                                     uint32_t gate, uint8_t *letters, size_t letters_len, uint32_t *walk,
                                     size_t walk_len, uint32_t *work, size_t work_len);

/* Reads a string into its tables, 3t entries of each, in walk order: triangle k has tip corner 3k, left end 3k + 1 and
 * right end 3k + 2, and the gate is corner 0. Done: t and v. Refusals: 1, 2, 3 to 7. */
struct last_answer last_read_string(const uint8_t *letters, size_t letters_len, uint32_t *vs, size_t vs_len,
                                    uint32_t *os, size_t os_len, uint32_t *work, size_t work_len);

/* Reads a record, and its string into tables as last_read_string does. Done: t, v and the gate, a corner in the
 * packer's own numbering. Refusals, in this order: 16, 17, 1, 8, 18, 2, 3 to 7; places of 3 to 7 count from the first letter. */
struct last_answer last_read_record(const uint8_t *record, size_t record_len, uint32_t *vs, size_t vs_len,
                                    uint32_t *os, size_t os_len, uint32_t *work, size_t work_len);

/* Writes the record of a string and its gate as text, which needs exactly its own length. Done: t, v and that length.
 * Refusals, in this order: 1, 8, 2, 3 to 7. */
struct last_answer last_write_record(const uint8_t *letters, size_t letters_len, uint32_t gate, uint8_t *text,
                                     size_t text_len, uint32_t *work, size_t work_len);

#ifdef __cplusplus
}
#endif

#endif
