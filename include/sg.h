/*
 * sg.h: the space-group engine sg, as a library.
 *
 *   #include <sg.h>
 *
 *   static const char triplets[] = "-x,y+1/2,-z+1/2\n-x,-y,-z\n";
 *   sg_group group = SG_NO_GROUP;
 *   uint32_t line;
 *   if (sg_group_close((const uint8_t *)triplets, sizeof triplets - 1, &group, &line) == SG_OK) {
 *       sg_reflection_marks marks;
 *       if (sg_reflection(&group, 0, 3, 0, true, &marks) == SG_OK && marks.mark == SG_ABSENT) ...
 *       sg_group_free(&group);
 *   }
 *
 * cc .. $(pkg-config --cflags --libs sg)
 *
 * Each function returns a status, 0 where it did what was asked, unless something else is said of it.
 *
 * For each call, which nothing checks:
 *  - No pointer is NULL, also where its length is 0. It points to as many bytes, or to the one value, as the call is told.
 *  - What a call may write to is apart from everything else that it is given.
 *  - An sg_group is SG_NO_GROUP at first, and after that nothing but these functions writes to it. Of an sg_group and its
 *    copies one is used. It may be used in any thread, but one call at a time is given it, also of those that only ask, and one
 *    ends before the next begins: by a lock, or by the start or the end of a thread. Different groups, and sg_answer, may be used
 *    in as many threads at once as you like.
 *  - malloc, realloc and free are those of one allocator, and align as those of the C library do. No call is made from a
 *    signal handler, or in the child that a process with several threads has forked.
 *
 * The library takes memory by malloc and gives all of it back before a call returns, but for what an sg_group holds, about
 * 47,000 bytes for each, and 64 for each of its rows where they were asked for. sg_group_free gives that back. The library reads
 * no file, writes none, and keeps nothing else between calls.
 */
#ifndef SG_H
#define SG_H

#include <stdbool.h>
#include <stddef.h>
#include <stdint.h>

#ifdef __cplusplus
extern "C" {
#endif

#define SG_VERSION "1.0.0"

/* ---- Statuses: those of the program sg, and one more. */

enum {
    SG_OK = 0,
    SG_NOT_TEXT = 1,       /* a word is no UTF-8 */
    SG_OUT_OF_RANGE = 2,   /* the words are no command in range; or a number is out of the range that is said */
    SG_UNREADABLE = 5,     /* a line of the input is no triplet */
    SG_NOT_UNIMODULAR = 6, /* a line is a triplet whose matrix has no inverse in whole numbers */
    SG_UNCLOSED = 7,       /* the operators generate more than 192, or one with an entry beyond 2 */
    SG_NOT_KEPT = 8,       /* the group does not keep the grid, or there is no group in the other basis or cell */
    SG_NO_MEMORY = 9,      /* memory was wanted */
    SG_TOO_LONG = 10,      /* the input has more than SG_MAX_INPUT bytes */
    SG_BAD_DATA = 11,      /* a data line is none of the command */
    SG_WRONG_COUNT = 12,   /* too many data lines, or another number of values than the grid has points; or an array is not as
                              long as is said */
    SG_EMPTY = 13          /* the sg_group holds no group */
};

/* ---- Ranges and units. */

#define SG_PARTS 24                   /* a translation counts twenty-fourths of a cell */
#define SG_MAX_ORDER 192              /* the most operators that a group has */
#define SG_MAX_INPUT 1048576          /* the most bytes that an input has */
#define SG_MAX_FAULT 160              /* room for the text of each fault */
#define SG_MAX_INDEX 10000            /* the greatest size of h, k and l */
#define SG_MAX_ENTRY 2304             /* the greatest size of an entry of a change of the basis */
#define SG_MAX_CELL 12                /* and of one of the cell, and its greatest denominator */
#define SG_MAX_SIDE 2048              /* the most points of a grid along an axis */
#define SG_MAX_POINTS 2097152         /* and in a cell */
#define SG_MAX_NUMERATOR 1000000000   /* the greatest size of a numerator of a coordinate */
#define SG_MAX_DENOMINATOR 1000000    /* the greatest denominator of a coordinate; it is positive */

/* ---- The answer of a command. */

/* How many bytes a text has, and how many the text of a fault. */
typedef struct {
    size_t text;
    size_t fault;
} sg_lengths;

/*
 * Answers as the program sg does. The words are those of its command line, with a line feed between two of them, as
 * "refl\n5\n5\n5"; the input is what it reads, one triplet a line.
 *
 * The status is that of the program, which is never 3 or 4 here. With status 0 the answer is a text, which is put into
 * text. With any other but SG_NOT_TEXT the text of the fault, a line, is put into fault. As of snprintf, what has no room is
 * left out: lengths says how long the texts are, and a text is whole where that is at most its capacity. Behind a text, and
 * where there is none, a buffer stays as it was. No NUL is added. The text of a fault has at most SG_MAX_FAULT bytes.
 */
uint8_t sg_answer(const uint8_t *words, size_t words_length, const uint8_t *input, size_t input_length,
                  uint8_t *text, size_t text_capacity, uint8_t *fault, size_t fault_capacity, sg_lengths *lengths);

/* ---- A group, for many questions. */

/* Holds a group, or none. */
typedef struct {
    void *held;
} sg_group;

#define SG_NO_GROUP { NULL }

/*
 * Closes the operators of an input, one triplet a line, to a group modulo the translations of the lattice, which the sg_group
 * then holds. A group that it held before is freed, in any case. Where the status is not 0 it holds none, and line is the
 * number of the line that is at fault, from 1, for SG_UNREADABLE and SG_NOT_UNIMODULAR; otherwise line is 0.
 * Statuses: SG_OK, SG_UNREADABLE, SG_NOT_UNIMODULAR, SG_UNCLOSED, SG_NO_MEMORY, SG_TOO_LONG.
 */
uint8_t sg_group_close(const uint8_t *input, size_t length, sg_group *group, uint32_t *line);

/* Frees the group that is held, if any. It then holds none. */
void sg_group_free(sg_group *group);

/* Returns how many operators the group has, 1 to SG_MAX_ORDER, or 0 where none is held. */
uint16_t sg_group_order(sg_group *group);

/* The operator x -> W x + t / SG_PARTS: W row by row, with entries from -2 to 2, and t with 0 to SG_PARTS - 1. */
typedef struct {
    int32_t w[9];
    int32_t t[3];
} sg_operator;

/* The type of an operator: that of its proper part, which is W or, where the determinant of W is -1, -W. */
typedef struct {
    int32_t intrinsic[3]; /* the intrinsic part, the translation along the axis or the plane, in parts of a cell: these */
    int32_t denominator;  /* numbers over this one, which is positive and need not be the least */
    int32_t axis[3];      /* what the proper part fixes, in whole multiples of the basis, without common divisor and with its */
                          /* first number that is not 0 positive; or 0 0 0, where that is not one line */
    uint16_t order;       /* of the proper part: 1, 2, 3, 4 or 6 */
    bool proper;          /* whether the determinant of W is 1 */
} sg_operator_type;

/*
 * Writes the operator at this place, from 0: the identity, then the others by their matrices, descending, and those with one
 * matrix by their translations, ascending. Statuses: SG_OK, SG_OUT_OF_RANGE, SG_EMPTY.
 */
uint8_t sg_group_operator(sg_group *group, uint32_t place, sg_operator *op);

/*
 * Write all operators, or their types, in this order. Each array has sg_group_order(group) elements, and its count says so.
 * Where the status is not 0, nothing is written. Statuses: SG_OK, SG_WRONG_COUNT, SG_EMPTY.
 */
uint8_t sg_group_operators(sg_group *group, sg_operator *ops, size_t ops_count);
uint8_t sg_group_types(sg_group *group, sg_operator_type *types, size_t types_count);

/* ---- The group in other coordinates. */

/*
 * Takes the group to another basis and origin, by x -> W x + t / SG_PARTS, or to a cell of another volume, by
 * x -> W x / over + t / SG_PARTS; the other sg_group then holds it. A group that this one held before is freed, in any case; where
 * the status is not 0, it holds none. The two are different, and the first is as it was.
 *
 * W has entries up to SG_MAX_ENTRY in size and an inverse in whole numbers; of a change of the cell, entries up to SG_MAX_CELL and a
 * determinant other than 0, and over is 1 to SG_MAX_CELL. t is 0 to SG_PARTS - 1.
 * SG_NOT_KEPT comes where an operator would have an entry beyond 2; and after a change of the cell, where the translations by its
 * axes are none of the group, where an operator would not be whole or finer than 1 / SG_PARTS, or where there would be more than
 * SG_MAX_ORDER operators. Statuses: SG_OK, SG_OUT_OF_RANGE, SG_NOT_KEPT, SG_NO_MEMORY, SG_EMPTY.
 */
uint8_t sg_group_basis(sg_group *group, const sg_operator *change, sg_group *changed);
uint8_t sg_group_recell(sg_group *group, const sg_operator *change, uint8_t over, sg_group *changed);

/*
 * ---- Arrays of questions.
 *
 * A call with an array of questions writes the answer of each to the same place of another array. Both have one length, which may
 * be 0, and each count is that of the array before it; otherwise the status is SG_WRONG_COUNT. All questions are looked at before
 * the first answer is written: where one is out of range, the status is SG_OUT_OF_RANGE, and bad is the place of the first such
 * one, from 0. With another status bad stays as it was. Where the status is not 0, no answer is written.
 * Statuses: SG_OK, SG_WRONG_COUNT, SG_OUT_OF_RANGE, SG_EMPTY; where several apply, the first of them but SG_OK.
 */

/* ---- Reflections. */

enum {
    SG_FREE = 0,       /* present, with any phase */
    SG_RESTRICTED = 1, /* present, with one of two opposite phases */
    SG_ABSENT = 2      /* systematically absent */
};

/* What symmetry says of a reflection. */
typedef struct {
    uint16_t class_size; /* how many reflections are equivalent to it, itself among them */
    uint16_t fixers;     /* how many operators (W, t) have h W = h */
    uint8_t mark;        /* SG_FREE, SG_RESTRICTED or SG_ABSENT */
    uint8_t phase;       /* of a restricted one: its phase is phase * 180 / SG_PARTS degrees, or 180 degrees more; else 0 */
} sg_reflection_marks;

/*
 * With friedel, h and -h are equivalent; without, as where anomalous scattering tells them apart, no phase is restricted.
 * h, k and l are at most SG_MAX_INDEX in size. Statuses: SG_OK, SG_OUT_OF_RANGE, SG_EMPTY.
 */
uint8_t sg_reflection(sg_group *group, int32_t h, int32_t k, int32_t l, bool friedel, sg_reflection_marks *marks);

/* The three numbers of an index. An array of them has the layout of an array of int32_t with three for each. */
typedef struct {
    int32_t h;
    int32_t k;
    int32_t l;
} sg_index;

/* The same for each index of an array. */
uint8_t sg_reflections(sg_group *group, bool friedel, const sg_index *indices, size_t indices_count,
                       sg_reflection_marks *marks, size_t marks_count, size_t *bad);

/*
 * For each index of an array, writes the greatest of those that are equivalent to it: by h, then by k, then by l. Indices are
 * equivalent where these are the same. It can be beyond SG_MAX_INDEX.
 */
uint8_t sg_class_keys(sg_group *group, bool friedel, const sg_index *indices, size_t indices_count,
                      sg_index *keys, size_t keys_count, size_t *bad);

/* What was measured of a class of equivalent reflections. */
typedef struct {
    int64_t sum;    /* the sum of the values */
    sg_index key;   /* the greatest index of the class, as of sg_class_keys */
    uint32_t count; /* how many of the indices are of the class */
    bool absent;    /* whether it is systematically absent */
    bool observed;  /* whether it is, and one of the values is not 0 */
} sg_merged_class;

/*
 * Merges values by the classes of their indices. count becomes the number of classes, which are written to the front of the array
 * by their keys, descending; there are at most as many as indices. values has a value for each index. Where the status is not 0,
 * nothing but bad is written, as of each call with an array of questions. Statuses: SG_OK, SG_OUT_OF_RANGE, SG_NO_MEMORY, SG_EMPTY,
 * and SG_WRONG_COUNT where there are not as many values as indices, more than 2^32 - 1 of them, or more classes than the array has
 * room for.
 */
uint8_t sg_merge(sg_group *group, bool friedel, const sg_index *indices, size_t indices_count,
                 const int32_t *values, size_t values_count,
                 sg_merged_class *classes, size_t classes_room, size_t *count, size_t *bad);

/* ---- Points. */

/* The fraction n / d. */
typedef struct {
    int64_t n;
    int64_t d;
} sg_fraction;

/* Coordinates, in parts of a cell. */
typedef struct {
    sg_fraction x;
    sg_fraction y;
    sg_fraction z;
} sg_point;

/* The order of the site-symmetry group of a point, and how many points its orbit has in a cell. */
typedef struct {
    uint16_t order;
    uint16_t multiplicity;
} sg_site_counts;

/* Numerators and denominators are in the ranges above. Statuses: SG_OK, SG_OUT_OF_RANGE, SG_EMPTY. */
uint8_t sg_site(sg_group *group, const sg_point *point, sg_site_counts *site);

/* The same for each point of an array. */
uint8_t sg_sites(sg_group *group, const sg_point *points, size_t points_count,
                 sg_site_counts *sites, size_t sites_count, size_t *bad);

/*
 * ---- The table of Wyckoff positions.
 *
 * A call that needs the rows looks for them where the group has not been asked for them before, which takes a while for a large
 * group; the sg_group then holds them too. Then the status may also be SG_NO_MEMORY, and nothing is written.
 */

/*
 * A row: its points have so many images in a cell, and some image of each is M x + t, for some point x, with whole cells added.
 * M is m / n, row by row, and t is t / (n * SG_PARTS) in parts of a cell, where n is sg_group_order(group).
 */
typedef struct {
    int32_t m[9];
    int32_t t[3];
    uint16_t multiplicity;
} sg_row;

/* Writes how many rows there are. Statuses: SG_OK, SG_NO_MEMORY, SG_EMPTY. */
uint8_t sg_rows_count(sg_group *group, size_t *count);

/*
 * Writes the rows, those of more points first. The array has as many elements as there are rows, and its count says so.
 * Statuses: SG_OK, SG_NO_MEMORY, SG_WRONG_COUNT, SG_EMPTY.
 */
uint8_t sg_rows(sg_group *group, sg_row *rows, size_t rows_count);

/* For each point of an array, writes the place of the one row that it fits, from 0. */
uint8_t sg_fit(sg_group *group, const sg_point *points, size_t points_count,
               size_t *places, size_t places_count, size_t *bad);

/* ---- Maps. */

/*
 * Sums the values at the points of a grid over their orbits: at each grid point of a cell the sum of the values at the points of its
 * orbit in the cell, each taken once. The point i/a, j/b, k/c has the place (i * b + j) * c + k in both arrays, and both counts
 * are a * b * c. a, b and c are 1 to SG_MAX_SIDE, and a * b * c is at most SG_MAX_POINTS. total becomes the sum of all values.
 * Where the status is not 0, nothing is written. SG_NOT_KEPT comes exactly where some operator takes a point of the grid to another
 * point. Statuses: SG_OK, SG_OUT_OF_RANGE, SG_WRONG_COUNT, SG_NOT_KEPT, SG_NO_MEMORY, SG_EMPTY.
 */
uint8_t sg_symmetrize(sg_group *group, uint16_t a, uint16_t b, uint16_t c, const int32_t *values, size_t values_count,
                      int64_t *sums, size_t sums_count, int64_t *total);

#ifdef __cplusplus
}
#endif

#endif
