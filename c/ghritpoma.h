/* The desk for one output port of a switch (document 01), for programs in C.
 *
 * Link the proved core, which `tools/staticlib face` at the project's root writes for x86-64 Linux:
 *     cc program.c target/staticlib/libface.a
 *
 * A desk goes into a call by value and comes back in its reply, changed or unchanged; nothing is kept between calls,
 * and nothing has to be freed. Only hand over desks that a call handed back: desk_bare's, or any reply's `desk`. That
 * is all a call asks: whatever the numbers and octets are, it is proved to answer what document 01 says. Of a desk
 * made in any other way nothing is proved.
 *
 * Every reply has `number`: 0 where the call is accepted, else document 01's number of the refusal (GHRITPOMA_*
 * below). A refused call hands back the desk that it was handed, and a refused plan comes back with the bare desk. The
 * other numbers are 0 where there is nothing to tell. All times are whole nanoseconds.
 */
#ifndef GHRITPOMA_H
#define GHRITPOMA_H

#include <stddef.h>
#include <stdint.h>

#ifdef __cplusplus
extern "C" {
#endif

/* A desk: a block that only the calls look into. It can be copied by assignment. Two open desks are the same, by
 * document 01, where they write the same plan; memcmp does not tell, since the block has gaps. */
typedef struct {
    uint64_t block[1223];
} ghritpoma_desk;

/* Document 01, "What is refused". */
enum {
    GHRITPOMA_ACCEPTED = 0,
    GHRITPOMA_CUT_SHORT = 1,
    GHRITPOMA_UNKNOWN_TAG = 2,
    GHRITPOMA_WRONG_LENGTH = 3,
    GHRITPOMA_OUT_OF_TURN = 4,
    GHRITPOMA_OUT_OF_RANGE = 5,
    GHRITPOMA_OVERLAP = 6,
    GHRITPOMA_FULL = 7,
    GHRITPOMA_ID_HELD = 8,
    GHRITPOMA_NOT_HELD = 9,
    GHRITPOMA_NO_FREE_CELL = 10,
    GHRITPOMA_NO_ROOM = 11,
    GHRITPOMA_ENDLESS = 12,
    GHRITPOMA_LATE = 13,
    GHRITPOMA_OVER_HORIZON = 14
};

/* The most slots, streams and stairs, and the most octets of a plan: room of that size is never too short. */
enum {
    GHRITPOMA_MOST_SLOTS = 32,
    GHRITPOMA_MOST_STREAMS = 64,
    GHRITPOMA_MOST_STAIRS = 993,
    GHRITPOMA_MOST_OCTETS = 1648
};

typedef struct {
    uint64_t number;
    ghritpoma_desk desk;
} ghritpoma_edited;

/* `value` is the figure asked for; with GHRITPOMA_LATE it is the bound. */
typedef struct {
    uint64_t number;
    uint64_t value;
    ghritpoma_desk desk;
} ghritpoma_figured;

/* A blocked run: its first cell, and how many cells it has, across the cycle's end where it goes on there. */
typedef struct {
    uint32_t start;
    uint32_t length;
} ghritpoma_run;

/* The first `count` of `runs`, by rising start. */
typedef struct {
    uint64_t number;
    uint64_t count;
    ghritpoma_run runs[GHRITPOMA_MOST_SLOTS];
    ghritpoma_desk desk;
} ghritpoma_runs_told;

/* The first `count` of `distance` and of `total`, by rising distance: stair k is (distance[k], total[k]). */
typedef struct {
    uint64_t number;
    uint64_t count;
    uint32_t distance[GHRITPOMA_MOST_STAIRS];
    uint32_t total[GHRITPOMA_MOST_STAIRS];
    ghritpoma_desk desk;
} ghritpoma_stairs_told;

/* `place` is that of the refused field's first octet. */
typedef struct {
    uint64_t number;
    uint64_t place;
    ghritpoma_desk desk;
} ghritpoma_plan_read;

/* `count` is how many octets were written. */
typedef struct {
    uint64_t number;
    uint64_t count;
    ghritpoma_desk desk;
} ghritpoma_plan_written;

/* ---- edits; beside each its refusals, in the order in which they are tried */

/* The desk with no port. */
ghritpoma_desk desk_bare(void);

/* 4, 5 */
ghritpoma_edited desk_open_port(ghritpoma_desk d, uint64_t rate, uint64_t cycle, uint64_t guard, uint64_t header);

/* The slot from start up to, not including, end. 4, 5, 7, 6, 10 */
ghritpoma_edited desk_add_slot(ghritpoma_desk d, uint64_t start, uint64_t end);

/* 4, 9 */
ghritpoma_edited desk_remove_slot(ghritpoma_desk d, uint64_t start);

/* 4, 5, 7, 8 */
ghritpoma_edited desk_add_stream(ghritpoma_desk d, uint64_t id, uint64_t priority, uint64_t octets, uint64_t period,
                                 uint64_t jitter, uint64_t deadline);

/* 4, 9 */
ghritpoma_edited desk_remove_stream(ghritpoma_desk d, uint64_t id);

/* ---- questions; the desk handed back is the one handed in */

/* 4 */
ghritpoma_runs_told desk_runs(ghritpoma_desk d);

/* 4 */
ghritpoma_stairs_told desk_stairs(ghritpoma_desk d);

/* Interference V(t). 4, 14 */
ghritpoma_figured desk_interference(ghritpoma_desk d, uint64_t t);

/* The response bound of a stream. 4, 9, 12, 13 */
ghritpoma_figured desk_response(ghritpoma_desk d, uint64_t id);

/* ---- plans as octets; a pointer is never null, even where there are 0 octets behind it */

/* The desk of a plan of `length` octets, all of which can be read; the bare desk where the plan is refused.
 * 1 to 8 and 10 */
ghritpoma_plan_read desk_read(const uint8_t *plan, size_t length);

/* The desk's plan, written at the front of a room of `length` octets, which nobody else uses during the call. The
 * octets after those written keep their value, and all of them where the call is refused. 4, 11 */
ghritpoma_plan_written desk_write(ghritpoma_desk d, uint8_t *room, size_t length);

#ifdef __cplusplus
}
#endif

#endif
