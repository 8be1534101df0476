/* liblagoon: salt transport on a lagoon mesh, in whole numbers.
 *
 *   1  version, answers and causes
 *   2  records: their layout and lengths
 *   3  calls on records       lagoon_step, lagoon_plain_step, lagoon_check, lagoon_crossing, lagoon_judge, lagoon_cut
 *   4  tables: their positions and lengths
 *   5  calls on tables        lagoon_table_step, lagoon_table_plain_step, lagoon_table_judge, lagoon_table_cut
 *   6  records and tables     lagoon_read_mesh, .. _field, .. _step, lagoon_write_mesh, .. _field, .. _step
 *   7  pages and boards       lagoon_total, lagoon_board, lagoon_page, lagoon_public_page, lagoon_public_board, each on records and on tables
 *   8  period and charge      lagoon_add, lagoon_charge
 *   9  fields kept by name    lagoon_keep, lagoon_drop, lagoon_give_back
 *  10  shares                 lagoon_share
 *
 * This header is enough to make the calls and to read what they answer. The rule of a step is in docs/ARITHMETIC.md, what is proved of
 * each call in docs/PROMISES.md. Each group has a program in examples/; examples/lagoon_records.h, to be copied, packs and takes apart
 * records in C.
 *
 * Build the library with `make lib` and link target/lib/liblagoon.a, or liblagoon.so. It needs memset and memcpy of the C library, nothing
 * else, has 128 KiB of code and figures at most, and runs on x86-64 with the System V calling convention.
 *
 * What all calls share. A table or a record is a pointer, then its length in entries, or bytes. No pointer is null, also where the length
 * is 0, and so many entries behind it are the host's; tables of 64 bits lie at multiples of 8. What is not const is written, and overlaps
 * nothing else that is lent. Each call takes any values and tests them itself; it allocates nothing, keeps no state, reads no clock and
 * always returns. Several threads may make calls at once, each with tables of its own to be written; what is const may be shared, while
 * nobody writes it.
 */
#ifndef LAGOON_H
#define LAGOON_H

#include <stddef.h>
#include <stdint.h>

#ifdef __cplusplus
extern "C" {
#endif

/* ---------------------------------------------------------------- 1  Version, answers and causes */

#define LAGOON_VERSION "2.8.1"
#define LAGOON_VERSION_NUMBER 2008001 /* 1,000,000 times the first number, 1,000 times the second, and the third */

/* The LAGOON_VERSION_NUMBER that the library was built with. The first number changes where a figure that was given before changes. */
uint64_t lagoon_version(void);

/* A call answers 0 where it is accepted. Else the answer is 4,294,967,296 times the cause plus the place, and everything that was lent is
 * as it was: a refusal changes nothing.
 *
 * What a call finds is put into its last argument, found: the numbers that are named at the call, in that order, as many as found has room
 * for. Its entries past them, and all of them after a refusal, stay. A host that does not ask lends length 0. */
#define LAGOON_CAUSE(answer) ((uint32_t)((answer) >> 32))
#define LAGOON_PLACE(answer) ((uint32_t)((answer) & 0xffffffffu))

/* Why something is refused, and what the place then is. */
enum lagoon_cause {
    LAGOON_LIMITS = 1,        /* no cell, or more cells or faces than the limits; place 0 for cells, 1 for faces */
    LAGOON_TABLE = 2,         /* a lent table is too short, or too few bytes for a record or page; place: its position (enum lagoon_position) */
    LAGOON_VOLUME = 3,        /* a volume outside 1 to 65,535; in a narrow record that is written, above 4,095; place: the cell */
    LAGOON_ENDS = 4,          /* first no cell; second neither a cell nor LAGOON_RIM; or both equal; place: the face */
    LAGOON_SPACING = 5,       /* share outside 1 to 255, reach outside 1 to 65,535 (narrow, written: 4,095); at the rim either not 0; place: the face */
    LAGOON_CONCENTRATION = 6, /* mass divided by volume, rounded down, above 1,000,000; place: the cell */
    LAGOON_OUTSIDE = 7,       /* an outside value above 1,000,000, or not 0 elsewhere than at a rim inflow; place: the face */
    LAGOON_FLUX = 8,          /* a flux larger than the reach, or than 65,535 at the rim (narrow, written: 4,095); place: the face */
    LAGOON_BALANCE = 9,       /* what enters a cell is not what leaves it, inflow and outflow; place: the cell */
    LAGOON_OUTFLOW = 10,      /* more leaves a cell than its volume; place: the cell */
    LAGOON_LENGTH = 11,       /* a record of the wrong length; place 0 */
    LAGOON_BIT = 12,          /* a zero bit that is set, or a minus with size 0; place: the first such bit of its record, from 0 */
    LAGOON_HEAD = 13,         /* a kind or count other than expected, or a count that a store cannot hold; place 0 for the kind, 1 for the count */
    LAGOON_PAGE = 14,         /* a page number beyond the last; place: the page */
    LAGOON_NAME = 15,         /* on keeping: a name of 0, above 65,535 or already kept; place: the name */
    LAGOON_ROOM = 16,         /* on keeping: fewer entries left in the store than one for the name and one per cell; place: the name */
    LAGOON_UNKEPT = 17,       /* on dropping or return: a name that is not kept; place: the name */
    LAGOON_RELEASE = 18,      /* mass and release divided by volume, rounded down, above 1,000,000; on writing, a release too large; place: the cell */
    LAGOON_COORDINATE = 19,   /* a survey coordinate not finite or of size above 1,000,000; place 0 to 7: the argument of lagoon_share */
    LAGOON_RATIO = 20,        /* both distances are 0, or their ratio below 1/256 or not below 1; place 0 */
    LAGOON_MOVED = 21,        /* a claimed mass of size above 1,099,511,627,776, not 0 at a still face, or at the rim not its water's; place: the face */
    LAGOON_BOUNDS = 22,       /* by a claim: a next mass below 0, or a next concentration outside its neighbourhood's bounds; place: the cell */
    LAGOON_LABEL = 23,        /* in cutting: a label other than 0 and 1; place: the cell */
    LAGOON_PART = 24,         /* in cutting: a part without cells; place: the label */
    LAGOON_BANDS = 25,        /* no bands or more than 8, ends that do not rise to 2^40, a price or remainder too large; place 0, or the band */
    LAGOON_PERIOD = 26,       /* in charging, a total above the last end; in adding, one past 2^40; place 0; or the face */
    LAGOON_MARK = 27          /* a mark other than 0 and 1; place: the cell */
};

/* A cause in words. */
static inline const char *lagoon_cause_text(uint32_t cause)
{
    switch (cause) {
    case 0: return "accepted";
    case LAGOON_LIMITS: return "no cell, or too many cells or faces";
    case LAGOON_TABLE: return "a lent table is too short";
    case LAGOON_VOLUME: return "volume outside its range";
    case LAGOON_ENDS: return "ends of a face are not two cells, or a cell and the rim";
    case LAGOON_SPACING: return "share or reach outside its range, or not 0 at the rim";
    case LAGOON_CONCENTRATION: return "concentration above its ceiling";
    case LAGOON_OUTSIDE: return "outside value above its ceiling, or not 0 elsewhere than at a rim inflow";
    case LAGOON_FLUX: return "flux above the reach of its face, or above its ceiling at the rim";
    case LAGOON_BALANCE: return "inflow and outflow of a cell differ";
    case LAGOON_OUTFLOW: return "outflow of a cell above its volume";
    case LAGOON_LENGTH: return "record of the wrong length";
    case LAGOON_BIT: return "a zero bit is set, or a minus has size 0";
    case LAGOON_HEAD: return "kind or count of a record other than expected, or a count that a store cannot hold";
    case LAGOON_PAGE: return "page number beyond the last";
    case LAGOON_NAME: return "name 0, above its range or already kept";
    case LAGOON_ROOM: return "no room left in the store for the name and the cells";
    case LAGOON_UNKEPT: return "name not kept";
    case LAGOON_RELEASE: return "concentration above its ceiling with the release; on writing, a release that the record cannot hold";
    case LAGOON_COORDINATE: return "a survey coordinate not finite or too large";
    case LAGOON_RATIO: return "no ratio of the distances that a share can be";
    case LAGOON_MOVED: return "a claimed mass too large, at a still face, or other than the rim's water carries";
    case LAGOON_BOUNDS: return "by a claim, a next mass below 0 or a next concentration outside the bounds of its neighbourhood";
    case LAGOON_LABEL: return "a label other than 0 and 1";
    case LAGOON_PART: return "a part without cells";
    case LAGOON_BANDS: return "bands, a price or a remainder out of range";
    case LAGOON_PERIOD: return "a period's total past its last end";
    case LAGOON_MARK: return "a mark other than 0 and 1";
    default: return "no cause of this library";
    }
}

/* A thread that makes a call needs this much stack, in bytes; tests/host.sh measures what the largest of them take. The stack is touched
 * page by page downwards, so a thread with less ends in its guard page and writes nothing beyond it. */
#define LAGOON_STACK_BYTES (640 * 1024)

/* Ceilings of the values, and of a volume, a reach and the size of a flux in narrow records (below). */
#define LAGOON_RIM 4095                   /* in the place of a second cell: the face is at the rim */
#define LAGOON_MAX_VOLUME 65535
#define LAGOON_MAX_SHARE 255
#define LAGOON_MAX_REACH 65535
#define LAGOON_MAX_CONCENTRATION 1000000  /* of a cell, and outside */
#define LAGOON_MAX_RIM_FLUX 65535
#define LAGOON_NARROW_MAX 4095

/* ---------------------------------------------------------------- 2  Records */

/* Limits of the calls on records. A larger mesh is refused with cause 1. */
#define LAGOON_MAX_CELLS 1023
#define LAGOON_MAX_FACES 2046

/* Records: rows of bits, the most significant bit of each number first, filled with zero bits up to a whole byte. Widths in bits stand
 * in brackets, where there are two that of a narrow record first; cells and faces follow each other by number, from 0.
 *
 *   mesh   kind 1, wide 5 (4), cells (12), faces (13), zeros (3); per cell its volume (12, wide 16);
 *          then per face first cell (12), second cell or LAGOON_RIM (12), share (8), reach (12, wide 16); at the rim share and reach are 0
 *   field  kind 2, wide 6 (4), cells (12); per cell its mass (32, wide 40)
 *   step   kind 3 or 4, wide 7 or 8 (4), faces (13), zeros (15); per face sign (1 is minus) and size of its flux (12, wide 16);
 *          then per rim face, in face order, its outside concentration (20), 0 where its flux is not below 0;
 *          then, in kinds 4 and 8 only, per cell the mass released into it (32, wide 40), at once after the last outside value
 *
 * The records of one call have one width, that of the mesh: a field of kind 2 and steps of kinds 3 and 4 go with a mesh of kind 1, those
 * of kinds 6, 7 and 8 with one of kind 5; any other kind is refused by 13, place 0. The next field record is of that width too.
 * A volume or a reach above LAGOON_NARROW_MAX takes a wide mesh. Where there is none, narrow records hold the mesh and every field and step
 * that is accepted on it, and wide ones may be used all the same.
 *
 * A flux is the volume that passes a face in the step, positive from first to second cell, outward at the rim; a flux of 0 has sign 0.
 * Releases are added first, and the step starts from the raised masses. Steps with and without releases may follow each other in any order.
 * One cell of volume 100 and no face is 10 01 00 00 06 40; its field with mass 99 is 20 01 00 00 00 63. One cell of volume 65,535 is
 * 50 01 00 00 ff ff; its field with mass 65,535,065,534, the greatest that this volume may hold, is 60 01 0f 42 31 bd be. */
enum lagoon_kind { LAGOON_MESH = 1, LAGOON_FIELD = 2, LAGOON_STEP = 3, LAGOON_OUTFALLS = 4,
                   LAGOON_WIDE_MESH = 5, LAGOON_WIDE_FIELD = 6, LAGOON_WIDE_STEP = 7, LAGOON_WIDE_OUTFALLS = 8 };

/* Narrow records are of kinds 1 to 4, wide ones of kinds 5 to 8. */
enum lagoon_width { LAGOON_NARROW, LAGOON_WIDE };

/* Lengths of records in bytes. They are expressions, no preprocessor constants: an array takes them, #if does not. The longest record within
 * the limits is a wide step with releases whose faces are all at the rim, 14,582 bytes. */
#define LAGOON_MESH_BYTES(cells, faces) ((32 + 12 * (size_t)(cells) + 44 * (size_t)(faces) + 7) / 8)
#define LAGOON_FIELD_BYTES(cells) ((16 + 32 * (size_t)(cells)) / 8)
#define LAGOON_STEP_BYTES(faces, rim_faces) ((32 + 13 * (size_t)(faces) + 20 * (size_t)(rim_faces) + 7) / 8)
#define LAGOON_OUTFALLS_BYTES(cells, faces, rim_faces) (LAGOON_STEP_BYTES(faces, rim_faces) + 4 * (size_t)(cells))
#define LAGOON_WIDE_MESH_BYTES(cells, faces) ((32 + 16 * (size_t)(cells) + 48 * (size_t)(faces)) / 8)
#define LAGOON_WIDE_FIELD_BYTES(cells) ((16 + 40 * (size_t)(cells)) / 8)
#define LAGOON_WIDE_STEP_BYTES(faces, rim_faces) ((32 + 17 * (size_t)(faces) + 20 * (size_t)(rim_faces) + 7) / 8)
#define LAGOON_WIDE_OUTFALLS_BYTES(cells, faces, rim_faces) (LAGOON_WIDE_STEP_BYTES(faces, rim_faces) + 5 * (size_t)(cells))

/* ---------------------------------------------------------------- 3  Calls on records */

/* mesh, field and step are read only, each length that of the record, neither more nor less. The mesh record is tested first, then the field,
 * then the step record with the water in it, then what the call asks for besides (lagoon_judge and lagoon_cut say where claim and labels are tested), last the room;
 * the first that is refused gives the answer.
 * Within a record the order is 11 for less than a head, 13, 1, 11, 12, then 18, then the lowest of 3 to 10. No alignment is asked. */

/* One step. next: room for the next field record, which is as long as the field; bytes past the record stay. After an accepted step copy it
 * over the field, or let the two change places. Refuses by 2, place 11, where next is too short. */
uint64_t lagoon_step(const uint8_t *mesh, size_t mesh_len, const uint8_t *field, size_t field_len, const uint8_t *step, size_t step_len,
                     uint8_t *next, size_t next_len);

/* The same by plain upwind, first order and without corrections. Refuses what lagoon_step refuses. */
uint64_t lagoon_plain_step(const uint8_t *mesh, size_t mesh_len, const uint8_t *field, size_t field_len, const uint8_t *step, size_t step_len,
                           uint8_t *next, size_t next_len);

/* What lagoon_step would answer where there is room; nothing is written. */
uint64_t lagoon_check(const uint8_t *mesh, size_t mesh_len, const uint8_t *field, size_t field_len, const uint8_t *step, size_t step_len);

/* found: in-mass, out-mass and released mass of the step; field is the one before it. The total after the step is the one before it + in-mass
 * + released mass - out-mass. Refuses what lagoon_check refuses. */
uint64_t lagoon_crossing(const uint8_t *mesh, size_t mesh_len, const uint8_t *field, size_t field_len, const uint8_t *step, size_t step_len,
                         uint64_t *found, size_t found_len);

/* Another model's step, by the masses that it claims to have moved through the faces, an entry each. next: the field record that they lead
 * to. found: in-mass, out-mass and released mass. Refuses what is refused of the mesh, of the field and of reading the step record, in this
 * order; then by 2, place 9, where the claim is too short; 18; 7 and 8; 9 and 10; 21; 22; last by 2, place 11. */
uint64_t lagoon_judge(const uint8_t *mesh, size_t mesh_len, const uint8_t *field, size_t field_len, const uint8_t *step, size_t step_len,
                      const int64_t *claim, size_t claim_len, uint8_t *next, size_t next_len, uint64_t *found, size_t found_len);

/* A lagoon cut in two by a label for each cell, 0 or 1: mesh, field and step record of part 0, then of part 1, of the width of the mesh and of
 * the kind of the step. lagoon_table_cut below says what a part has. found: the bytes that each of the six records takes; bytes past them stay.
 * A part has no more cells and faces than the whole, and all its faces may be at the rim: rooms as long as the whole's mesh and field, and
 * LAGOON_STEP_BYTES(faces, faces) or the like of the whole's kind, are always enough. Refuses what is refused of the mesh; then by 2, place 15, where there are fewer labels than cells, 23 and 24; then what is
 * refused of the field and of the step; last by 2, place 11, where one of the six has too little room. */
uint64_t lagoon_cut(const uint8_t *mesh, size_t mesh_len, const uint8_t *field, size_t field_len, const uint8_t *step, size_t step_len,
                    const uint64_t *labels, size_t labels_len, uint8_t *mesh0, size_t mesh0_len, uint8_t *field0, size_t field0_len,
                    uint8_t *step0, size_t step0_len, uint8_t *mesh1, size_t mesh1_len, uint8_t *field1, size_t field1_len, uint8_t *step1,
                    size_t step1_len, uint64_t *found, size_t found_len);

/* ---------------------------------------------------------------- 4  Tables */

/* Limits of the calls on tables. */
#define LAGOON_TABLE_MAX_CELLS 4095
#define LAGOON_TABLE_MAX_FACES 8190

/* The tables by the positions that cause 2 names, with the entries that each has at least. A table may be longer: entries past these are
 * neither tested nor touched. */
enum lagoon_position {
    LAGOON_AT_VOLUMES = 0,  /* cells */
    LAGOON_AT_FIRSTS = 1,   /* faces: the first cell */
    LAGOON_AT_SECONDS = 2,  /* faces: the second cell, or LAGOON_RIM */
    LAGOON_AT_SHARES = 3,   /* faces */
    LAGOON_AT_REACHES = 4,  /* faces */
    LAGOON_AT_MASSES = 5,   /* cells */
    LAGOON_AT_FLUXES = 6,   /* faces, signed */
    LAGOON_AT_OUTSIDES = 7, /* faces: the outside concentration at a rim inflow, else 0 */
    LAGOON_AT_NEXT = 8,     /* cells: filled with the next masses */
    LAGOON_AT_MOVED = 9,    /* faces, signed: moved, filled with the moved masses; or a claim, which is read */
    LAGOON_AT_WORK = 10,    /* LAGOON_WORK_ENTRIES(cells, faces): zeros after acceptance */
    LAGOON_AT_RECORD = 11,  /* bytes of a record */
    LAGOON_AT_PAGE = 12,    /* bytes of a page */
    LAGOON_AT_STORE = 13,   /* LAGOON_STORE_ENTRIES(cells, fields) */
    LAGOON_AT_RELEASES = 14, /* cells: the mass released into each */
    LAGOON_AT_LABELS = 15,  /* cells: 0 or 1, the part that each is cut into */
    LAGOON_AT_TOTALS = 16,  /* faces: what moved outward over the rim in a period */
    LAGOON_AT_ENDS = 17,    /* bands */
    LAGOON_AT_PRICES = 18,  /* bands: cents per million mass units */
    LAGOON_AT_MARKS = 19    /* cells: 0 open, 1 withheld */
};

#define LAGOON_WORK_ENTRIES(cells, faces) (4 * (size_t)(cells) + (size_t)(faces))

/* ---------------------------------------------------------------- 5  Calls on tables */

/* One step on tables. next: the next masses; moved: the mass that moved through each face; work: zeros. found: in-mass, out-mass and released
 * mass. Refuses by 1; 2, places 0 to 10 and 14; 3, 4, 5; 6; 18; 7, 8; 9, 10, in this order. */
uint64_t lagoon_table_step(uint64_t cells, uint64_t faces, const uint64_t *volumes, size_t volumes_len, const uint64_t *firsts,
                           size_t firsts_len, const uint64_t *seconds, size_t seconds_len, const uint64_t *shares, size_t shares_len,
                           const uint64_t *reaches, size_t reaches_len, const uint64_t *masses, size_t masses_len, const int64_t *fluxes,
                           size_t fluxes_len, const uint64_t *outsides, size_t outsides_len, uint64_t *next, size_t next_len,
                           int64_t *moved, size_t moved_len, uint64_t *work, size_t work_len, const uint64_t *releases,
                           size_t releases_len, uint64_t *found, size_t found_len);

/* The same by plain upwind. Refuses as lagoon_table_step. */
uint64_t lagoon_table_plain_step(uint64_t cells, uint64_t faces, const uint64_t *volumes, size_t volumes_len, const uint64_t *firsts,
                                 size_t firsts_len, const uint64_t *seconds, size_t seconds_len, const uint64_t *shares,
                                 size_t shares_len, const uint64_t *reaches, size_t reaches_len, const uint64_t *masses,
                                 size_t masses_len, const int64_t *fluxes, size_t fluxes_len, const uint64_t *outsides,
                                 size_t outsides_len, uint64_t *next, size_t next_len, int64_t *moved, size_t moved_len, uint64_t *work,
                                 size_t work_len, const uint64_t *releases, size_t releases_len, uint64_t *found, size_t found_len);

/* Another model's step, by its claim. next: the masses that it leads to. found: in-mass, out-mass and released mass. Refuses by 1; 2, places
 * 0 to 9 and 14; 3, 4, 5; 6; 18; 7, 8; 9, 10; 21; 22. */
uint64_t lagoon_table_judge(uint64_t cells, uint64_t faces, const uint64_t *volumes, size_t volumes_len, const uint64_t *firsts,
                            size_t firsts_len, const uint64_t *seconds, size_t seconds_len, const uint64_t *shares, size_t shares_len,
                            const uint64_t *reaches, size_t reaches_len, const uint64_t *masses, size_t masses_len,
                            const int64_t *fluxes, size_t fluxes_len, const uint64_t *outsides, size_t outsides_len, uint64_t *next,
                            size_t next_len, const int64_t *claim, size_t claim_len, const uint64_t *releases, size_t releases_len,
                            uint64_t *found, size_t found_len);

/* A lagoon cut in two by a label for each cell: mesh, masses, water and releases of part 0 and of part 1, cells and faces in their old order. A
 * face between the parts is at the rim of both, on the side of its second cell turned round; where water enters a part there, it brings the
 * concentration across the cut, releases added. Every table of a part has as many entries as the whole's, and those past the part's own counts
 * stay. found: cells and faces of part 0, then of part 1. Refuses by 1; 2, places 0 to 7, 14 and 15, whichever table of that position it is;
 * 3, 4, 5; 23, 24; 6; 18; 7, 8; 9, 10. */
uint64_t lagoon_table_cut(uint64_t cells, uint64_t faces, const uint64_t *volumes, size_t volumes_len, const uint64_t *firsts,
                          size_t firsts_len, const uint64_t *seconds, size_t seconds_len, const uint64_t *shares, size_t shares_len,
                          const uint64_t *reaches, size_t reaches_len, const uint64_t *masses, size_t masses_len, const int64_t *fluxes,
                          size_t fluxes_len, const uint64_t *outsides, size_t outsides_len, const uint64_t *releases, size_t releases_len,
                          const uint64_t *labels, size_t labels_len, uint64_t *volumes0, size_t volumes0_len, uint64_t *firsts0,
                          size_t firsts0_len, uint64_t *seconds0, size_t seconds0_len, uint64_t *shares0, size_t shares0_len,
                          uint64_t *reaches0, size_t reaches0_len, uint64_t *masses0, size_t masses0_len, int64_t *fluxes0,
                          size_t fluxes0_len, uint64_t *outsides0, size_t outsides0_len, uint64_t *releases0, size_t releases0_len,
                          uint64_t *volumes1, size_t volumes1_len, uint64_t *firsts1, size_t firsts1_len, uint64_t *seconds1,
                          size_t seconds1_len, uint64_t *shares1, size_t shares1_len, uint64_t *reaches1, size_t reaches1_len,
                          uint64_t *masses1, size_t masses1_len, int64_t *fluxes1, size_t fluxes1_len, uint64_t *outsides1,
                          size_t outsides1_len, uint64_t *releases1, size_t releases1_len, uint64_t *found, size_t found_len);

/* ---------------------------------------------------------------- 6  Records and tables */

/* A record read into tables, whose values are not judged, and tables written as a record. width is an enum lagoon_width, any number but 0
 * for the wide records; a mesh's reader finds it and the others are told. The limits are those of tables. */

/* found: cells, faces and width. Refuses by 11, 13, 1, 11; 2, places 0 to 4; 12. */
uint64_t lagoon_read_mesh(const uint8_t *bytes, size_t bytes_len, uint64_t *volumes, size_t volumes_len, uint64_t *firsts,
                          size_t firsts_len, uint64_t *seconds, size_t seconds_len, uint64_t *shares, size_t shares_len,
                          uint64_t *reaches, size_t reaches_len, uint64_t *found, size_t found_len);

/* Refuses by 11, 13, 1, 11; 2, place 5. */
uint64_t lagoon_read_field(uint64_t width, uint64_t cells, const uint8_t *bytes, size_t bytes_len, uint64_t *masses, size_t masses_len);

/* found: the kind, 3, 4, 7 or 8. Outsides away from the rim are filled with 0, and so are the releases of kinds 3 and 7. Refuses by 11, 13, 1;
 * 2, place 2; 11; 2, places 6, 7 and 14; 12. */
uint64_t lagoon_read_step(uint64_t width, uint64_t cells, uint64_t faces, const uint64_t *seconds, size_t seconds_len, const uint8_t *bytes,
                          size_t bytes_len, int64_t *fluxes, size_t fluxes_len, uint64_t *outsides, size_t outsides_len,
                          uint64_t *releases, size_t releases_len, uint64_t *found, size_t found_len);

/* found: the length of the record; bytes past it stay. Refuses by 1; 2, places 0 to 4 and 11; 3, 4, 5, of narrow records above 4,095. */
uint64_t lagoon_write_mesh(uint64_t width, uint64_t cells, uint64_t faces, const uint64_t *volumes, size_t volumes_len,
                           const uint64_t *firsts, size_t firsts_len, const uint64_t *seconds, size_t seconds_len,
                           const uint64_t *shares, size_t shares_len, const uint64_t *reaches, size_t reaches_len, uint8_t *bytes,
                           size_t bytes_len, uint64_t *found, size_t found_len);

/* The same of a field, on the mesh that it belongs to. Refuses by 1; 2, places 0 to 5 and 11; 3, 4, 5; 6. */
uint64_t lagoon_write_field(uint64_t width, uint64_t cells, uint64_t faces, const uint64_t *volumes, size_t volumes_len,
                            const uint64_t *firsts, size_t firsts_len, const uint64_t *seconds, size_t seconds_len,
                            const uint64_t *shares, size_t shares_len, const uint64_t *reaches, size_t reaches_len,
                            const uint64_t *masses, size_t masses_len, uint8_t *bytes, size_t bytes_len, uint64_t *found,
                            size_t found_len);

/* The same of a step. kind: 3, 4, 7 or 8, an enum lagoon_kind, which says the width too; another number is a step without releases, wide from 5
 * on. Refuses by 1; 2, places 0 to 4, 6, 7, 11 and 14; 3, 4, 5; 18, a release that its bits do not hold, or any where the record has none;
 * 7, 8. */
uint64_t lagoon_write_step(uint64_t kind, uint64_t cells, uint64_t faces, const uint64_t *volumes, size_t volumes_len,
                           const uint64_t *firsts, size_t firsts_len, const uint64_t *seconds, size_t seconds_len,
                           const uint64_t *shares, size_t shares_len, const uint64_t *reaches, size_t reaches_len,
                           const int64_t *fluxes, size_t fluxes_len, const uint64_t *outsides, size_t outsides_len,
                           const uint64_t *releases, size_t releases_len, uint8_t *bytes, size_t bytes_len, uint64_t *found,
                           size_t found_len);

/* ---------------------------------------------------------------- 7  Pages and boards of a field */

/* On records, refused by the causes of the mesh and of the field first, then by what is named below; on tables by 1; 2, places 0 and 5 and those
 * named below; 3; 6; then what is named below. Pages have sixty cells each and are counted from 0; a page has LAGOON_MOST_PAGE_BYTES at most. A
 * line has 18 bytes, or 19 where some volume of the mesh is above 4,095. */
#define LAGOON_PAGE_CELLS 60
#define LAGOON_MOST_PAGE_BYTES (61 * 19)
#define LAGOON_BOARD_NUMBERS 25 /* how many lines are used, then eight times cell, concentration and rest; lines not used are 0 */

/* found: the sum of all masses. */
uint64_t lagoon_total(const uint8_t *mesh, size_t mesh_len, const uint8_t *field, size_t field_len, uint64_t *found, size_t found_len);
uint64_t lagoon_table_total(uint64_t cells, const uint64_t *volumes, size_t volumes_len, const uint64_t *masses, size_t masses_len,
                            uint64_t *found, size_t found_len);

/* found: LAGOON_BOARD_NUMBERS numbers: the eight highest concentrations, as the run prints them. */
uint64_t lagoon_board(const uint8_t *mesh, size_t mesh_len, const uint8_t *field, size_t field_len, uint64_t *found, size_t found_len);
uint64_t lagoon_table_board(uint64_t cells, const uint64_t *volumes, size_t volumes_len, const uint64_t *masses, size_t masses_len,
                            uint64_t *found, size_t found_len);

/* A page for the binder. found: its length; bytes past it stay. Refuses by 2, place 12, where the bytes do not hold the page, and by 14. */
uint64_t lagoon_page(const uint8_t *mesh, size_t mesh_len, const uint8_t *field, size_t field_len, uint32_t page, uint8_t *bytes,
                     size_t bytes_len, uint64_t *found, size_t found_len);
uint64_t lagoon_table_page(uint64_t cells, const uint64_t *volumes, size_t volumes_len, const uint64_t *masses, size_t masses_len,
                           uint32_t page, uint8_t *bytes, size_t bytes_len, uint64_t *found, size_t found_len);

/* The page that the public reads: without withheld cells, by a mark for each cell, and without its mass; room is lent for the whole page.
 * Refuses by 2, places 12 and 19, 14 and 27. */
uint64_t lagoon_public_page(const uint8_t *mesh, size_t mesh_len, const uint8_t *field, size_t field_len, uint32_t page, uint8_t *bytes,
                            size_t bytes_len, const uint64_t *marks, size_t marks_len, uint64_t *found, size_t found_len);
uint64_t lagoon_table_public_page(uint64_t cells, const uint64_t *volumes, size_t volumes_len, const uint64_t *masses, size_t masses_len,
                                  uint32_t page, uint8_t *bytes, size_t bytes_len, const uint64_t *marks, size_t marks_len,
                                  uint64_t *found, size_t found_len);

/* The board among open cells only. Refuses by 2, place 19, and 27. */
uint64_t lagoon_public_board(const uint8_t *mesh, size_t mesh_len, const uint8_t *field, size_t field_len, const uint64_t *marks,
                             size_t marks_len, uint64_t *found, size_t found_len);
uint64_t lagoon_table_public_board(uint64_t cells, const uint64_t *volumes, size_t volumes_len, const uint64_t *masses, size_t masses_len,
                                   const uint64_t *marks, size_t marks_len, uint64_t *found, size_t found_len);

/* ---------------------------------------------------------------- 8  Period and charge */

#define LAGOON_MAX_BANDS 8
#define LAGOON_LAST_END ((uint64_t)1 << 40) /* of the last band, and the largest total */

/* After an accepted step: each rim face's total gains its moved mass where that is above 0. Refuses by 1, place 1; 2, places 2, 9 and 16; 26. */
uint64_t lagoon_add(uint64_t faces, const uint64_t *seconds, size_t seconds_len, const int64_t *moved, size_t moved_len, uint64_t *totals,
                    size_t totals_len);

/* A face's total charged by bands: ends, and prices in cents per million. remainder: what the last charge of that face left, below 1,000,000.
 * found: whole cents, and the new remainder. Refuses by 25, place 0, for the number of bands; 2, places 17 and 18; 25; 26. */
uint64_t lagoon_charge(uint64_t total, uint64_t bands, const uint64_t *ends, size_t ends_len, const uint64_t *prices, size_t prices_len,
                       uint64_t remainder, uint64_t *found, size_t found_len);

/* ---------------------------------------------------------------- 9  Fields kept by name */

/* A store has named fields of one mesh, the names from 1 to 65,535: an entry for how many there are, then of each its name and its masses. A table
 * whose first entry is 0 is an empty store. Whoever lends it with another number of cells reads it wrongly. */
#define LAGOON_STORE_ENTRIES(cells, fields) (1 + (size_t)(fields) * ((size_t)(cells) + 1))

/* The field goes after all others. Refuses by 1; 2, places 0, 5 and 13; 3; 6; 13; 15; 16. */
uint64_t lagoon_keep(uint64_t cells, const uint64_t *volumes, size_t volumes_len, const uint64_t *masses, size_t masses_len,
                     uint64_t *store, size_t store_len, uint32_t name);

/* Later fields move down, and the entries that become free are 0. Refuses by 1; 2, place 13; 13; 17. */
uint64_t lagoon_drop(uint64_t cells, uint64_t *store, size_t store_len, uint32_t name);

/* The kept masses, exactly. Refuses by 1; 2, places 0, 5 and 13; 3; 13; 17; then by 6 of what is kept. */
uint64_t lagoon_give_back(uint64_t cells, const uint64_t *volumes, size_t volumes_len, uint64_t *masses, size_t masses_len,
                          const uint64_t *store, size_t store_len, uint32_t name);

/* ---------------------------------------------------------------- 10  Shares from survey points */

/* The ends of a face, and the centres of its first and second cell. found: the share, 1 to 255. Refuses by 19 and 20. */
uint64_t lagoon_share(double x1, double y1, double x2, double y2, double first_x, double first_y, double second_x, double second_y,
                      uint64_t *found, size_t found_len);

#ifdef __cplusplus
}
#endif

#endif
