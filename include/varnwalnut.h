/*
 * Varnwalnut: routes through small towns whose roads take as long as the hour makes them take.
 *
 * A network file holds a town's places, roads and travels; a plan file holds flags and profiles that make
 * searches short. A network can be imported from a text, and a plan be made of a network. Each call takes
 * whole files as bytes and validates them first; it reads nothing else, keeps nothing between calls and
 * allocates nothing.
 *
 * Every function returns 0, or the number of a refusal (below). Every one ends, on any bytes and any numbers,
 * and changes nothing but the buffers that it names as written. These things are proved; so is what each
 * buffer holds afterwards.
 *
 * A list is a pointer and then a count of ELEMENTS (not of bytes). Pointers are never NULL, also where the
 * count is 0. No written list overlaps another list of the same call. Numbers in files are low byte first;
 * numbers in lists of uint16_t and uint32_t are the machine's own.
 *
 * Threads: the functions have no state and may run at once on any number of threads, also on the same files.
 * Stack: below 24 KB for each function but four: varnwalnut_check_plan needs below 64 KB,
 * varnwalnut_make_plan below 56 KB, varnwalnut_day_sheet below 32 KB, and varnwalnut_import_dimacs below
 * 26 KB. varnwalnut_pack_network needs below 2 KB.
 *
 * Link with libvarnwalnut.a: cc program.c -Iinclude crates/varnwalnut/out/libvarnwalnut.a
 */
#ifndef VARNWALNUT_H
#define VARNWALNUT_H

#include <stddef.h>
#include <stdint.h>

#ifdef __cplusplus
extern "C" {
#endif

/* The interface's version. Wishes of document 02 that are built make its second number. */
#define VARNWALNUT_VERSION "0.7.0"

/* Limits. */
enum {
    VARNWALNUT_MOST_TICKS = 2880,  /* the period: ticks of half a minute in a day */
    VARNWALNUT_MOST_PLACES = 512,
    VARNWALNUT_MOST_ROADS = 2048,
    VARNWALNUT_MOST_CELLS = 64,
    VARNWALNUT_MOST_POINTS = 65535,
    VARNWALNUT_TRIP_BYTES = 1032,  /* the longest answer to a trip: 511 roads */
    VARNWALNUT_NETWORK_BYTES = 285696, /* the longest network file */
    VARNWALNUT_PLAN_BYTES = 7023616,   /* the longest plan file */
    VARNWALNUT_WORK_ENTRIES = 1474560  /* the longest work list that a call needs: ticks x places */
};

/* The arrival of a place that is not reached. */
#define VARNWALNUT_NEVER UINT32_C(4294967295)

/*
 * Refusals. The lowest number wins, then the lowest place, but for 37, which comes straight after 7, over all
 * places; a function with another order names it. In brackets: what the three places say; places that are not
 * named are 0. Where counts do not add up, the place is how many roads or profiles there are. The sentences
 * are those of varnwalnut_text.h.
 */
enum {
    VARNWALNUT_OK = 0,

    /* the network file */
    VARNWALNUT_NETWORK_LENGTH = 1,  /* the network's length is zero, no multiple of 512, or above 558
                                       blocks */
    VARNWALNUT_NETWORK_SUM = 2,     /* the check of a block of the network is wrong (block) */
    VARNWALNUT_NETWORK_FIRST = 3,   /* the network's first block is wrong: kind, number, entries, byte 1 or
                                       fill */
    VARNWALNUT_NETWORK_LIMITS = 4,  /* the numbers of the network's header are outside the limits */
    VARNWALNUT_NETWORK_SIZE = 5,    /* the network's length is not what its header calls for */
    VARNWALNUT_NETWORK_FORM = 6,    /* a later block of the network is wrong: kind, number, entries, byte 1
                                       or fill (block) */
    VARNWALNUT_NETWORK_CELL = 7,    /* a place's cell is not below the count of cells (place) */
    VARNWALNUT_NETWORK_HOURS = 37,  /* a place's open tick is not below its close tick, or that one is
                                       above the period; without hours: it is not open all day (place) */
    VARNWALNUT_NETWORK_ROAD = 8,    /* a road's ends or its count of points are wrong, or the counts do not
                                       add up (road or count of roads) */
    VARNWALNUT_NETWORK_POINT = 9,   /* a point's tick or travel is wrong (point) */
    VARNWALNUT_NETWORK_FIFO = 10,   /* leaving later would arrive earlier (earlier point) */

    /* the plan file */
    VARNWALNUT_PLAN_LENGTH = 11,    /* the plan's length is zero, no multiple of 512, or above 13,718
                                       blocks */
    VARNWALNUT_PLAN_SUM = 12,       /* the check of a block of the plan is wrong (block) */
    VARNWALNUT_PLAN_FIRST = 13,     /* the plan's first block is wrong: kind, number, entries, byte 1 or
                                       fill */
    VARNWALNUT_PLAN_OTHER = 14,     /* the plan is for another network, or has too many profile points */
    VARNWALNUT_PLAN_SIZE = 15,      /* the plan's length is not what its header calls for */
    VARNWALNUT_PLAN_FORM = 16,      /* a later block of the plan is wrong: kind, number, entries, byte 1 or
                                       fill (block) */
    VARNWALNUT_PLAN_FLAG = 17,      /* a flag is for a cell that is not there (road) */
    VARNWALNUT_PLAN_COUNT = 18,     /* a profile's count of points is above the period, or the counts do
                                       not add up (profile or count of profiles) */
    VARNWALNUT_PLAN_TICK = 19,      /* a profile point's tick is wrong (point) */

    /* the check of a plan; a border is told by its index */
    VARNWALNUT_CHECK_INSIDE = 20,   /* a road inside a cell has not that cell's flag (road) */
    VARNWALNUT_CHECK_BORDER = 21,   /* a border's own profile is not 0 (border, place, tick) */
    VARNWALNUT_CHECK_LESS = 22,     /* a road gives less travel than the profile says (border, place, tick) */
    VARNWALNUT_CHECK_NO_ROAD = 23,  /* no road gives the travel that the profile says (border, place, tick) */
    VARNWALNUT_CHECK_NO_FLAG = 24,  /* roads give it, none of them with the flag (border, place, tick) */

    /* the call */
    VARNWALNUT_PLACE = 25,          /* from, or else to, is no place (number) */
    VARNWALNUT_DEPARTURE = 26,      /* the departure is not below the period */
    VARNWALNUT_ARRIVALS_SHORT = 27, /* the list of arrivals is shorter than the count of places */
    VARNWALNUT_NO_WAY = 28,         /* there is no way */
    VARNWALNUT_ROADS_SHORT = 29,    /* the list of roads is shorter than the chosen way */
    VARNWALNUT_TABLE_SHORT = 30,    /* a lent table is shorter than its count */
    VARNWALNUT_ANSWER_SHORT = 31,   /* the answer, the bytes for a file or the day's list are too few */

    /* making a plan; 34 also the day sheet */
    VARNWALNUT_PLAN_POINTS = 33,    /* the plan would have more than 1,048,576 profile points */
    VARNWALNUT_WORK_SHORT = 34,     /* the work list is shorter than ticks x places */

    /* the import of a text */
    VARNWALNUT_TEXT_FORM = 35,      /* a line's form or order is wrong, or sizes or arcs are missing (line
                                       or count of lines) */
    VARNWALNUT_TEXT_VALUE = 36      /* an arc's ends or weight are wrong, or sizes are outside the limits
                                       (line) */
};

/*
 * THE TABLET
 *
 * A trip from one place to another, leaving at a tick of the day. The answer stands in bytes, low byte first:
 *   0..3 the refusal or 0 | 4..7 the tick of arrival | 8..9 the count of roads
 *   10.. the road numbers, 2 bytes each, from the first road to the last
 * On a refusal the arrival and the count are 0. Bytes after the last road number (on a refusal: from byte 10
 * on) stay as they were. With fewer than VARNWALNUT_TRIP_BYTES answer bytes the call returns 31 before all
 * else and writes nothing. 27 and 29 do not occur here. A tick of arrival may be after the period: it counts
 * on from the day of leaving.
 */

/*
 * Over all roads: the arrival is the earliest over all ways, with whatever waits. Hours play no part in it.
 * Refusals: 1 to 10 with 37, 25, 26, 28, 31.
 */
uint32_t varnwalnut_plain_trip(const uint8_t *network, size_t network_length,
                               uint8_t *answer, size_t answer_length,
                               uint32_t from, uint32_t to, uint32_t departure);

/*
 * Over the roads with the flag of the target's cell. Under a plan that varnwalnut_check_plan accepts, the
 * arrival is the earliest over all ways too, and 28 is said exactly when there is none. Refusals: 1 to 19
 * with 37, 25, 26, 28, 31.
 */
uint32_t varnwalnut_flagged_trip(const uint8_t *network, size_t network_length,
                                 const uint8_t *plan, size_t plan_length,
                                 uint8_t *answer, size_t answer_length,
                                 uint32_t from, uint32_t to, uint32_t departure);

/*
 * THE DESK
 *
 * Here the answer is a list of numbers: first the three places of a refusal, then the answer's own numbers.
 * On a refusal the numbers after the places are 0, but for the finds of varnwalnut_check_plan; on an answer
 * the places are 0. With fewer answer numbers than named the call returns 31 before all else and writes
 * nothing at all; numbers after those named stay as they were.
 */

/*
 * Is the plan one that the flagged trips of this network may trust? 0 exactly when its profiles are the true
 * least travels at every tick and its flags are enough. answer[0..5]: the places, then how many finds the
 * check made, in 64 bits: the low 32 bits, then the high. Refusals: 1 to 24 with 37, 31.
 *
 * A find is one piece of a day, from a point to the next, looked up and divided by its width. For each border
 * and each of 21 to 24 the finds are at most twice the points of all roads, twice those of all the border's
 * profiles, and for each road once those of its end's profile; one pass serves all four numbers, and keeps
 * within that bound for one of them. On acceptance the finds are no fewer than the points of all profiles,
 * beside 1 to 20 there are none, and beside 21 to 24 the finds made so far are told.
 */
uint32_t varnwalnut_check_plan(const uint8_t *network, size_t network_length,
                               const uint8_t *plan, size_t plan_length,
                               uint32_t *answer, size_t answer_length);

/*
 * The plan file of a network. Each profile but never has a point at tick 0 and at each later tick where the
 * step to the next tick differs from the step before it, the period's end counting as the next day's tick 0,
 * and no other. A road has the flag of a cell exactly when both its ends lie in the cell, or it starts a
 * least way to some border of the cell at some tick. varnwalnut_check_plan accepts every plan that is made:
 * flagged trips under it arrive as early as any way does.
 *
 * answer[0..4]: the places, then the file's length in bytes. `work` needs an entry for each tick of each
 * place, at most VARNWALNUT_WORK_ENTRIES; `out` needs at most VARNWALNUT_PLAN_BYTES. On a refusal no byte of
 * `out` changes; else its first bytes become the file and the others stay. On 1 to 10, 37 and 34 `work` stays
 * as it was; on 33, on 31 for `out` and on success the entries that are needed end as 0, and those after them
 * stay. Refusals: 1 to 10 with 37, then 34, 33, 31, in this order.
 */
uint32_t varnwalnut_make_plan(const uint8_t *network, size_t network_length,
                              uint32_t *work, size_t work_length,
                              uint8_t *out, size_t out_length,
                              uint32_t *answer, size_t answer_length);

/*
 * The sheet for a whole day: the tick of arrival from one place to another, for every leaving tick. Entry t
 * of `list` is for leaving at tick t. It is a full tick, the leaving tick plus the least travel, and may lie
 * past the day's end; from a place to itself it is t. Each entry is the arrival of a plain trip that leaves
 * then, and of a flagged trip under any plan that varnwalnut_check_plan accepts. No entry is below an earlier
 * one, and none is more than a period above another.
 *
 * answer[0..4]: the places, then the period, which is how many entries are filled. `work` needs an entry for
 * each tick of each place, at most VARNWALNUT_WORK_ENTRIES; `list` needs one for each tick, at most
 * VARNWALNUT_MOST_TICKS. On a refusal, 28 among them, no entry of `list` changes; else its first entries
 * become the arrivals and the others stay. On 1 to 10, 37, 25, 34 and 31 `work` stays as it was; on 28 and on
 * success the entries that are needed end as 0, and those after them stay. Refusals: 1 to 10 with 37, 25,
 * 34, 31, 28, in this order.
 */
uint32_t varnwalnut_day_sheet(const uint8_t *network, size_t network_length,
                              uint32_t from, uint32_t to,
                              uint32_t *work, size_t work_length,
                              uint32_t *list, size_t list_length,
                              uint32_t *answer, size_t answer_length);

/*
 * The tables of a network file: for each place its cell and the ticks at which it opens and closes; for each
 * road where it leads from and to and its count of points; for each point its tick and travel. A place is
 * open from its open tick up to, and without, its close tick, every day. answer[0..10]: the places, then
 * network number, period, places, roads, cells, points, and 1 where the file holds hours, else 0: then every
 * place opens at 0 and closes at the period. On a refusal every table stays as it was; else only the first
 * entries of each change, as many as there are places, roads or points. Refusals: 1 to 10 with 37, 30, 31.
 */
uint32_t varnwalnut_open_network(const uint8_t *network, size_t network_length,
                                 uint16_t *cells, size_t cells_length,
                                 uint16_t *opens, size_t opens_length,
                                 uint16_t *closes, size_t closes_length,
                                 uint16_t *from, size_t from_length,
                                 uint16_t *to, size_t to_length,
                                 uint16_t *points, size_t points_length,
                                 uint16_t *ticks, size_t ticks_length,
                                 uint16_t *travels, size_t travels_length,
                                 uint32_t *answer, size_t answer_length);

/*
 * The network file of such tables, of which only the first entries are looked at. `hours` is 1 for a file
 * that holds hours and 0 for one that does not; above 1 is 4. Under 0 every place has to open at 0 and close
 * at the period, else it is 37; under 1 the hours are written, also where all places are open all day.
 * answer[0..4]: the places, then the file's length in bytes. On a refusal no byte of `out` changes; else its
 * first bytes become the file and the others stay. What is packed opens to the same tables, and the tables of
 * an opened file pack to the same bytes. Refusals: 4, 30, 7, 37, 8 to 10, 31, in this order.
 */
uint32_t varnwalnut_pack_network(uint32_t number, uint32_t period, uint32_t place_count, uint32_t road_count,
                                 uint32_t cell_count, uint32_t point_count, uint32_t hours,
                                 const uint16_t *cells, size_t cells_length,
                                 const uint16_t *opens, size_t opens_length,
                                 const uint16_t *closes, size_t closes_length,
                                 const uint16_t *from, size_t from_length,
                                 const uint16_t *to, size_t to_length,
                                 const uint16_t *points, size_t points_length,
                                 const uint16_t *ticks, size_t ticks_length,
                                 const uint16_t *travels, size_t travels_length,
                                 uint8_t *out, size_t out_length,
                                 uint32_t *answer, size_t answer_length);

/*
 * The network file of a road file in the text form of the 9th DIMACS challenge. The text may be any bytes, of
 * any length. A line ends at a line feed or with the text; a line feed at the very end begins no further
 * line. Three kinds of line have a form:
 *   c..                  a remark: any line whose first byte is c, wherever it stands
 *   p sp NODES ARCS      the sizes: once, before every arc
 *   a TAIL HEAD WEIGHT   an arc: as many as ARCS says
 * Fields are one space apart, and nothing stands before the first or behind the last. A number has 1 to 9
 * decimal digits, leading zeros counted. NODES is 1 to 512 and ARCS 0 to 2,048; TAIL and HEAD are two
 * different nodes, numbered from 1, and WEIGHT is 1 to 2,880.
 *
 * The network has the number given, the period 2,880, one cell and a place for each node, numbered one lower.
 * Its roads are the arcs in the order of the text, each with one point: the weight is its travel in ticks, at
 * every hour. It holds no hours. What is written opens.
 *
 * answer[0..4]: the places, then the file's length in bytes. Lines are numbered from 1. 35 names the first
 * line that has no such form, is an arc before the sizes, a second line of sizes, or an arc more than ARCS;
 * without such a line, where the sizes or some arcs are missing, it names the count of lines. 36 names the
 * first line with a number outside its limits, equal ends, or an end that is no node; it is said only where
 * 35 is not. 31: `out` is shorter than the file. A line's number that needs more than 32 bits is told as
 * 4,294,967,295. On a refusal no byte of `out` changes; else its first bytes become the file and the others
 * stay. `out` needs at most 23,552 bytes. Refusals: 35, 36, 31, in this order.
 */
uint32_t varnwalnut_import_dimacs(const uint8_t *text, size_t text_length,
                                  uint32_t number,
                                  uint8_t *out, size_t out_length,
                                  uint32_t *answer, size_t answer_length);

/*
 * The trips with lent lists. answer[0..6]: the places, then the tick of arrival, the count of roads and the
 * open tick: the first tick from the arrival on at which the target is open. It counts on from the day of
 * leaving, as the arrival does, and may be the next day's; from a place to itself it is asked from the
 * departure on. Driving through a place that is shut is allowed. On a refusal other than 28 and 29 both lists
 * stay as they were. On arrival and on 29 the first arrivals, one for each place, hold the earliest arrival
 * where it is before the target's or the place is the target, else never; on 28 the earliest arrival of every
 * place that can be reached, and never for the others. `roads` changes only on arrival, in its first entries,
 * as many as are counted. Refusals: those of the tablet's trips, and 27 and 29.
 */
uint32_t varnwalnut_plain_trip_lists(const uint8_t *network, size_t network_length,
                                     uint32_t from, uint32_t to, uint32_t departure,
                                     uint32_t *arrivals, size_t arrivals_length,
                                     uint16_t *roads, size_t roads_length,
                                     uint32_t *answer, size_t answer_length);

uint32_t varnwalnut_flagged_trip_lists(const uint8_t *network, size_t network_length,
                                       const uint8_t *plan, size_t plan_length,
                                       uint32_t from, uint32_t to, uint32_t departure,
                                       uint32_t *arrivals, size_t arrivals_length,
                                       uint16_t *roads, size_t roads_length,
                                       uint32_t *answer, size_t answer_length);

#ifdef __cplusplus
}
#endif

#endif
