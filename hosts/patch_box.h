/* The patch box for hosts in C and C++. Link target/staticlib/libexports.a, which `tools/build archive` makes (x86-64 Linux).
 * The rules and the rim file are described in README.md and docs/SPECIFICATION.md.
 *
 * Tables. The host lends tables; a call keeps none of them and allocates nothing. A table is lent as a pointer and its number of places:
 *   - the pointer is not null and is aligned for the table's type, also where the table has no places; such a table is not accessed, so the address of
 *     any object of the type will do;
 *   - the places lie in one object, and no two tables of a call overlap, nor does the file overlap a table;
 *   - places that a call does not fill keep what they held, and a refusal changes none, but for the work table after 23, which patch_box_patch gives.
 *
 * Calls may run at once in several threads, over tables of their own. Each uses less than 64 KiB of stack.
 *
 * Outcomes. The field `number` of an answer is 0, or says why the call refused; then every other field is 0. Of a patch_box_patch_answer, and of a
 * patch_box_price_answer:
 *   number 0 and triangles above 0   a patch, or the price of one; a total may be 0
 *   number 0 and triangles 0         'none': the candidates hold no triangulation of the rim
 *
 * Editions. A call that takes a rim file takes both editions; a file whose first two bytes are both 255 is of edition 2.
 *   edition 1   8 + 16 * R bytes for R records; the weight of a candidate is its area weight
 *   edition 2   10 + 22 * R bytes: a record ends in the normal of the surface at its rim edge; the weight of a candidate is its own weight: area, and
 *               at each rim edge with a surface outside the bend factor times the bend between the two
 * patch_box_convert converts a file of either edition to the other.
 *
 * Limits. A limit is the most vertices that a rim may have, from 3 to 64. The calls whose names end in _within take one; the others take the largest, 64,
 * and answer as _within does for it. A limit that is not from 3 to 64 is refused with 14, before anything else is looked at. A chain of more records than
 * the limit is refused with 20 in the place of 5, unless the limit is 64. A rim has one answer under all limits that it fits into.
 */
#ifndef PATCH_BOX_H
#define PATCH_BOX_H

#include <stddef.h>
#include <stdint.h>

#ifdef __cplusplus
extern "C" {
#endif

/* The largest limit, and places that suffice for every rim. patch_box_sizes says what one rim needs, which is far less. */
enum {
    PATCH_BOX_MAX_FILE = 5642,        /* bytes of the longest rim file, which is of edition 2: 10 + 22 * 256 */
    PATCH_BOX_MAX_VERTICES = 64,      /* the largest limit */
    PATCH_BOX_MAX_TRIANGLES = 62,     /* a triangulation of n vertices has n - 2 triangles */
    PATCH_BOX_MAX_CANDIDATES = 41664, /* for candidates, weights and work: the triples of 64 vertices, 64 * 63 * 62 / 6 */
    PATCH_BOX_MAX_ROWS = 1270752      /* two for each four p < q < r < s of 64 vertices: pqr hangs on prs, and qrs hangs on pqs; 2 * 635376 */
};

/* Other limits. */
enum {
    PATCH_BOX_MIN_VERTICES = 3,  /* the smallest */
    PATCH_BOX_TRIM_VERTICES = 24 /* that of the trim program */
};

/* Why a call refused: the values of the field `number`. */
enum {
    PATCH_BOX_ACCEPTED = 0,             /* not refused */
    PATCH_BOX_LENGTH = 1,               /* the length of the file is not that of a header and its records, or these are over 256 */
    PATCH_BOX_AREA_FACTOR = 2,          /* the area factor is more than 16 */
    PATCH_BOX_LINK = 3,                 /* a link leads past the last record */
    PATCH_BOX_RECORD_REPEATED = 4,      /* a link leads back to a record of the chain */
    PATCH_BOX_TOO_MANY_VERTICES = 5,    /* the limit is 64, and the chain has more records */
    PATCH_BOX_KIND = 6,                 /* a record of the chain is neither a point nor a level point */
    PATCH_BOX_NO_HEIGHT = 7,            /* a level point has no point before it on the chain */
    PATCH_BOX_NOT_FINITE = 8,           /* a coordinate is not finite, or the unused bytes of a level point are not zero */
    PATCH_BOX_OUT_OF_RANGE = 9,         /* a coordinate is not from -125 to 125 mm */
    PATCH_BOX_TOO_FEW_VERTICES = 10,    /* the rim has fewer than 3 vertices */
    PATCH_BOX_VERTEX_REPEATED = 11,     /* two vertices are at one grid point */
    PATCH_BOX_COSPHERICAL = 12,         /* five vertices, not all in one plane, are on a sphere that has no vertex inside; in a flat rim, four on such a circle */
    PATCH_BOX_TABLE_TOO_SHORT = 13,     /* a lent table is too short */
    PATCH_BOX_VERTEX_COUNT = 14,        /* the n of a direct job, or the limit asked for, is not from 3 to 64 */
    PATCH_BOX_CANDIDATE = 15,           /* the candidates of a direct job are not vertices a < b < c < n in rising order */
    PATCH_BOX_ROW = 16,                 /* the rows of a direct job are not hanging pairs in rising order */
    PATCH_BOX_WEIGHT = 17,              /* a weight of a direct job is more than 2,000,000,000 */
    PATCH_BOX_NORMAL = 18,              /* a number of the normal of a vertex is not from -1000 to 1000 */
    PATCH_BOX_NORMAL_LOST = 19,         /* a normal would be lost: a record of the file to convert has one that is not zero */
    PATCH_BOX_OVER_LIMIT = 20,          /* the limit is below 64, and the chain has more records */
    PATCH_BOX_NOT_A_TRIANGULATION = 21, /* the list to judge is not a triangulation, or names a candidate twice */
    PATCH_BOX_WRONG_TOTAL = 22,         /* the total stated for the list to judge is not its own */
    PATCH_BOX_NOT_LEAST = 23            /* the agreed total is not the least total of the direct job */
};

/* Vertices a < b < c. Candidates stand in rising order, and a candidate's number is its place, from 0. */
typedef struct {
    uint8_t a, b, c;
} patch_box_candidate;

/* The weight of the pair in which candidate `inner` hangs on candidate `outer`. Rows rise by outer, then inner. */
typedef struct {
    uint32_t outer, inner, weight;
} patch_box_row;

typedef struct {
    uint32_t number;
    size_t triangles; /* how many first places of the triangle table are filled: n - 2, or 0 */
    uint64_t total;   /* the total of the patch, or 0 */
} patch_box_patch_answer;

typedef struct {
    uint32_t number;
    size_t triangles; /* of a patch of that total: n - 2, the places that patch_box_patch needs in the triangle table; 0 for 'none' */
    uint64_t total;   /* the least total, or 0 */
} patch_box_price_answer;

typedef struct {
    uint32_t number;
    uint64_t excess; /* of the stated total over the least one of the job */
} patch_box_judge_answer;

typedef struct {
    uint32_t number;
    size_t vertices;
} patch_box_read_answer;

typedef struct {
    uint32_t number;
    size_t candidates; /* how many first places of the candidate and weight tables are filled */
    size_t rows;       /* how many first places of the row table are filled */
} patch_box_find_answer;

/* The places that each table needs. */
typedef struct {
    uint32_t number;
    size_t triangles;
    size_t candidates;
    size_t weights;
    size_t rows;
    size_t work;
} patch_box_sizes_answer;

/* The converted file. */
typedef struct {
    uint32_t number;
    uint32_t edition; /* 2 for a file of edition 1, 1 for one of edition 2 */
    size_t length;    /* its bytes: how many first places of the output table are filled */
} patch_box_convert_answer;

/* The sizes of a rim file's tables: a number of 1 to 12 or 18, or what patch_box_rim needs at least. */
patch_box_sizes_answer patch_box_sizes(const uint8_t *file, size_t file_len);

/* The same within a limit: what patch_box_rim_within needs at least. */
patch_box_sizes_answer patch_box_sizes_within(size_t limit, const uint8_t *file, size_t file_len);

/* The one call: closes the rim of a rim file. A number of 1 to 13 or 18, or a patch, or 'none'. Unless it refuses, it leaves the rim's lists in the first
 * places of the tables for candidates, weights and rows, and zeros in the work table, as many as there are candidates. A patch fills the triangle table
 * with the numbers of its candidates, in walk order. The file alone fixes the patch: it does not depend on what the tables held, nor on their lengths
 * where these suffice. */
patch_box_patch_answer patch_box_rim(const uint8_t *file, size_t file_len,
                                     uint16_t *triangles, size_t triangles_len,
                                     patch_box_candidate *candidates, size_t candidates_len,
                                     uint32_t *weights, size_t weights_len,
                                     patch_box_row *rows, size_t rows_len,
                                     uint64_t *work, size_t work_len);

/* The same within a limit. */
patch_box_patch_answer patch_box_rim_within(size_t limit, const uint8_t *file, size_t file_len,
                                            uint16_t *triangles, size_t triangles_len,
                                            patch_box_candidate *candidates, size_t candidates_len,
                                            uint32_t *weights, size_t weights_len,
                                            patch_box_row *rows, size_t rows_len,
                                            uint64_t *work, size_t work_len);

/* The price of a direct job of n vertices, whose lists are the whole tables of candidates and rows: the least total of its triangulations, without a patch.
 * A number of 13 to 17, or the total, or 'none'. It needs as many places for weights and work as there are candidates, and none for triangles. Unless it
 * refuses, it leaves zeros in the work table, as many as there are candidates. */
patch_box_price_answer patch_box_price(size_t n,
                                       const patch_box_candidate *candidates, size_t candidates_len,
                                       const uint32_t *weights, size_t weights_len,
                                       const patch_box_row *rows, size_t rows_len,
                                       uint64_t *work, size_t work_len);

/* The patch of a direct job at an agreed total, that of patch_box_price as a rule. A number of 13 to 17, or 'none', whatever was agreed, or 23 where the
 * agreed total is not the least, or the patch. It speaks of the job as it is handed over: where the host has changed a weight since the price, a total
 * that is no longer the least is refused, and one that still is gives the best patch of the changed job. It needs n - 2 places for triangles, and for
 * weights and work as many as there are candidates; triangles and work are left as by patch_box_rim. With 23 no triangle is written, but the work table
 * is left as after 'none'. */
patch_box_patch_answer patch_box_patch(size_t n,
                                       const patch_box_candidate *candidates, size_t candidates_len,
                                       const uint32_t *weights, size_t weights_len,
                                       const patch_box_row *rows, size_t rows_len,
                                       uint64_t agreed,
                                       uint16_t *triangles, size_t triangles_len,
                                       uint64_t *work, size_t work_len);

/* The judge of a patch that another program made for a direct job: `list` has the numbers of its candidates, in any order, and `stated` is the total that
 * it is said to have. A number of 13 to 17, 21 or 22, or the excess of that total over the least one, 0 where no patch of the job costs less. A job whose
 * candidates hold no triangulation has no list but those refused with 21. Places for weights and work are as in patch_box_price, and so is what is left in
 * the work table. The list may have any length, and is lent as a table is: its pointer is not null, and it overlaps no table. */
patch_box_judge_answer patch_box_judge(size_t n,
                                       const patch_box_candidate *candidates, size_t candidates_len,
                                       const uint32_t *weights, size_t weights_len,
                                       const patch_box_row *rows, size_t rows_len,
                                       const uint16_t *list, size_t list_len,
                                       uint64_t stated,
                                       uint64_t *work, size_t work_len);

/* The reader alone: a number of 1 to 11 or 18, or how many vertices the rim has. */
patch_box_read_answer patch_box_read(const uint8_t *file, size_t file_len);

/* The same within a limit. */
patch_box_read_answer patch_box_read_within(size_t limit, const uint8_t *file, size_t file_len);

/* The reader, then the candidate finder: a number of 1 to 13 or 18, or the rim's lists in the first places of the three tables. */
patch_box_find_answer patch_box_find(const uint8_t *file, size_t file_len,
                                     patch_box_candidate *candidates, size_t candidates_len,
                                     uint32_t *weights, size_t weights_len,
                                     patch_box_row *rows, size_t rows_len);

/* The same within a limit. */
patch_box_find_answer patch_box_find_within(size_t limit, const uint8_t *file, size_t file_len,
                                            patch_box_candidate *candidates, size_t candidates_len,
                                            uint32_t *weights, size_t weights_len,
                                            patch_box_row *rows, size_t rows_len);

/* Conversion between editions. A number of 1 to 11, 13, 18 or 19, or the file in the other edition, in the first places of the output table: a file of
 * edition 1 with zero normals, or one of edition 2 without its normals, which must all be zero. Every record stays at its place, spare ones too, and its
 * other bytes are copied. What patch_box_read refuses is refused with its number; 13 comes before 19, and the normal of a spare record gives 19 too.
 * The file and the output table must not overlap. PATCH_BOX_MAX_FILE places suffice for every converted file. */
patch_box_convert_answer patch_box_convert(const uint8_t *file, size_t file_len,
                                           uint8_t *out, size_t out_len);

/* The library has each struct in this very layout: an array of a negative length does not compile. */
typedef char patch_box_assert_candidate[sizeof(patch_box_candidate) == 3 ? 1 : -1];
typedef char patch_box_assert_row[sizeof(patch_box_row) == 12 ? 1 : -1];
typedef char patch_box_assert_patch_answer[sizeof(patch_box_patch_answer) == 24 && offsetof(patch_box_patch_answer, total) == 16 ? 1 : -1];
typedef char patch_box_assert_price_answer[sizeof(patch_box_price_answer) == 24 && offsetof(patch_box_price_answer, total) == 16 ? 1 : -1];
typedef char patch_box_assert_judge_answer[sizeof(patch_box_judge_answer) == 16 && offsetof(patch_box_judge_answer, excess) == 8 ? 1 : -1];
typedef char patch_box_assert_read_answer[sizeof(patch_box_read_answer) == 16 ? 1 : -1];
typedef char patch_box_assert_find_answer[sizeof(patch_box_find_answer) == 24 ? 1 : -1];
typedef char patch_box_assert_sizes_answer[sizeof(patch_box_sizes_answer) == 48 ? 1 : -1];
typedef char patch_box_assert_convert_answer[sizeof(patch_box_convert_answer) == 16 && offsetof(patch_box_convert_answer, length) == 8 ? 1 : -1];

#ifdef __cplusplus
}
#endif

#endif
