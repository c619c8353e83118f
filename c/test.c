/* Every call of ghritpoma.h from C, on plan F and the small figures of document 01. Prints one line, and ends with 1
 * where a figure is wrong. */
#include "ghritpoma.h"

#include <stdio.h>
#include <string.h>

_Static_assert(sizeof(ghritpoma_desk) == 9784 && _Alignof(ghritpoma_desk) == 8, "the desk's block");
_Static_assert(offsetof(ghritpoma_edited, desk) == 8, "edited");
_Static_assert(offsetof(ghritpoma_figured, desk) == 16, "figured");
_Static_assert(offsetof(ghritpoma_runs_told, desk) == 272, "runs");
_Static_assert(offsetof(ghritpoma_stairs_told, total) == 3988, "totals");
_Static_assert(offsetof(ghritpoma_stairs_told, desk) == 7960, "stairs");
_Static_assert(offsetof(ghritpoma_plan_read, desk) == 16, "read");
_Static_assert(offsetof(ghritpoma_plan_written, desk) == 16, "written");

static int checks, wrong;

static void same(const char *what, uint64_t is, uint64_t wanted) {
    checks++;
    if (is == wanted)
        return;
    wrong++;
    printf("%s: %llu, not %llu\n", what, (unsigned long long)is, (unsigned long long)wanted);
}

static const uint8_t plan_f[89] = {
    0x01, 0x00, 0x0D, 0x02, 0x00, 0x01, 0x86, 0xA0, 0x00, 0x00, 0x03, 0xE8, 0x00, 0x00, 0x01, 0xF4,
    0x02, 0x00, 0x08, 0x00, 0x00, 0x27, 0x10, 0x00, 0x00, 0x36, 0xB0,
    0x02, 0x00, 0x08, 0x00, 0x00, 0x75, 0x30, 0x00, 0x00, 0x7E, 0xF4,
    0x02, 0x00, 0x08, 0x00, 0x00, 0xEA, 0x60, 0x00, 0x01, 0x0B, 0x94,
    0x03, 0x00, 0x11, 0x00, 0x01, 0x06, 0x00, 0x75,
    0x00, 0x03, 0x0D, 0x40, 0x00, 0x00, 0x00, 0x00, 0x00, 0x00, 0xC3, 0x50,
    0x03, 0x00, 0x11, 0x00, 0x02, 0x03, 0x00, 0xF2,
    0x00, 0x06, 0x1A, 0x80, 0x00, 0x00, 0x00, 0x00, 0x00, 0x00, 0x9C, 0x40,
};

/* The desk that an edit made, which must have been accepted. */
static ghritpoma_desk made(const char *what, ghritpoma_edited r) {
    same(what, r.number, GHRITPOMA_ACCEPTED);
    return r.desk;
}

static ghritpoma_desk by_calls(void) {
    ghritpoma_desk d = desk_bare();
    d = made("open_port", desk_open_port(d, 2, 100000, 1000, 500));
    d = made("add_slot 60000", desk_add_slot(d, 60000, 68500));
    d = made("add_slot 10000", desk_add_slot(d, 10000, 14000));
    d = made("add_slot 80000", desk_add_slot(d, 80000, 80001));
    d = made("add_slot 30000", desk_add_slot(d, 30000, 32500));
    d = made("add_stream 2", desk_add_stream(d, 2, 3, 242, 400000, 0, 40000));
    d = made("add_stream 9", desk_add_stream(d, 9, 7, 64, 10000, 1, 1));
    d = made("add_stream 1", desk_add_stream(d, 1, 6, 117, 200000, 0, 50000));
    d = made("remove_slot", desk_remove_slot(d, 80000));
    return made("remove_stream", desk_remove_stream(d, 9));
}

static void rows(ghritpoma_desk d) {
    static const uint32_t starts[3] = {9000, 29000, 59000}, lengths[3] = {5500, 4000, 10000};
    static const uint32_t distances[3] = {0, 30000, 50000}, totals[3] = {10000, 14000, 19500};
    ghritpoma_runs_told runs = desk_runs(d);
    ghritpoma_stairs_told stairs = desk_stairs(d);
    same("runs", runs.number, 0);
    same("runs' count", runs.count, 3);
    same("stairs", stairs.number, 0);
    same("stairs' count", stairs.count, 3);
    for (int k = 0; k < 3; k++) {
        same("run's start", runs.runs[k].start, starts[k]);
        same("run's length", runs.runs[k].length, lengths[k]);
        same("stair's distance", stairs.distance[k], distances[k]);
        same("stair's total", stairs.total[k], totals[k]);
    }
    same("no fourth run", runs.runs[3].length, 0);
    same("no fourth stair", stairs.total[3], 0);
}

static void figure(const char *what, ghritpoma_figured r, uint64_t number, uint64_t value) {
    same(what, r.number, number);
    same(what, r.value, value);
}

static void figures(ghritpoma_desk d) {
    figure("V(0)", desk_interference(d, 0), 0, 10000);
    figure("V(29999)", desk_interference(d, 29999), 0, 10000);
    figure("V(30000)", desk_interference(d, 30000), 0, 14000);
    figure("V(99999)", desk_interference(d, 99999), 0, 19500);
    figure("V(100000)", desk_interference(d, 100000), 0, 29500);
    figure("V(130000)", desk_interference(d, 130000), 0, 33500);
    figure("V(100000001)", desk_interference(d, 100000001), GHRITPOMA_OVER_HORIZON, 0);
    figure("response 1", desk_response(d, 1), 0, 44000);
    figure("response 2", desk_response(d, 2), GHRITPOMA_LATE, 44000);
    figure("response 3", desk_response(d, 3), GHRITPOMA_NOT_HELD, 0);
}

/* d writes plan F and leaves the octets behind it alone; a room too short by one keeps its octets. */
static void writes_f(ghritpoma_desk d) {
    uint8_t room[GHRITPOMA_MOST_OCTETS], untouched[GHRITPOMA_MOST_OCTETS];
    memset(room, 0xEE, sizeof room);
    memset(untouched, 0xEE, sizeof untouched);
    ghritpoma_plan_written r = desk_write(d, room, sizeof plan_f - 1);
    same("write, short", r.number, GHRITPOMA_NO_ROOM);
    same("write, short, count", r.count, 0);
    same("write, short, octets", memcmp(room, untouched, sizeof room) == 0, 1);
    r = desk_write(r.desk, room, sizeof room);
    same("write", r.number, 0);
    same("write's count", r.count, sizeof plan_f);
    same("write's octets", memcmp(room, plan_f, sizeof plan_f) == 0, 1);
    same("octets behind", memcmp(room + sizeof plan_f, untouched, sizeof room - sizeof plan_f) == 0, 1);
}

static void refusals(ghritpoma_desk d) {
    ghritpoma_edited r = desk_add_slot(d, 11000, 12000);
    same("overlap", r.number, GHRITPOMA_OVERLAP);
    writes_f(r.desk);
    same("open again", desk_open_port(d, 2, 100000, 1000, 500).number, GHRITPOMA_OUT_OF_TURN);
    same("out of range", desk_add_slot(d, 20000, 100001).number, GHRITPOMA_OUT_OF_RANGE);
    same("id held", desk_add_stream(d, 1, 6, 117, 200000, 0, 50000).number, GHRITPOMA_ID_HELD);
    same("slot not held", desk_remove_slot(d, 5).number, GHRITPOMA_NOT_HELD);
    same("stream not held", desk_remove_stream(d, 65536).number, GHRITPOMA_NOT_HELD);
    same("bare", desk_runs(desk_bare()).number, GHRITPOMA_OUT_OF_TURN);
    uint8_t cut[1] = {1};
    ghritpoma_plan_read read = desk_read(cut, 0);
    same("empty plan", read.number, GHRITPOMA_OUT_OF_TURN);
    same("empty plan's place", read.place, 0);
    same("empty plan's desk", desk_stairs(read.desk).number, GHRITPOMA_OUT_OF_TURN);
    same("lone octet", desk_read(cut, 1).number, GHRITPOMA_CUT_SHORT);
    uint8_t bent[sizeof plan_f];
    memcpy(bent, plan_f, sizeof bent);
    bent[18] = 7;
    read = desk_read(bent, sizeof bent);
    same("wrong length", read.number, GHRITPOMA_WRONG_LENGTH);
    same("wrong length's place", read.place, 16);
}

/* P4 to P6, P8 and P9. */
static void small_figures(void) {
    ghritpoma_desk open = made("P4's port", desk_open_port(desk_bare(), 3, 1000, 100, 50));
    ghritpoma_desk d = made("P4's slot", desk_add_slot(open, 0, 100));
    same("P4", desk_runs(d).runs[0].start, 900);
    same("P4", desk_runs(d).runs[0].length, 250);
    d = made("P5's slot", desk_add_slot(d, 250, 400));
    same("P5", desk_runs(d).runs[0].length, 550);
    same("P6", desk_add_slot(open, 0, 850).number, GHRITPOMA_NO_FREE_CELL);
    d = made("P6's slot", desk_add_slot(open, 0, 849));
    figure("P6", desk_interference(d, 1000), 0, 1998);
    figure("P7", desk_interference(open, 1000), 0, 0);
    d = made("P8's port", desk_open_port(desk_bare(), 2, 1000, 1, 0));
    d = made("P8's stream", desk_add_stream(d, 7, 3, 117, 20000, 30000, 20000));
    figure("P8", desk_response(d, 7), 0, 20000);
    d = made("P9's port", desk_open_port(desk_bare(), 3, 1000, 1, 0));
    d = made("P9's stream", desk_add_stream(d, 7, 3, 1242, 10000, 0, 20000));
    figure("P9", desk_response(d, 7), GHRITPOMA_ENDLESS, 0);
}

int main(void) {
    ghritpoma_plan_read read = desk_read(plan_f, sizeof plan_f);
    same("read", read.number, 0);
    same("read's place", read.place, 0);
    ghritpoma_desk both[2] = {read.desk, by_calls()};
    for (int k = 0; k < 2; k++) {
        rows(both[k]);
        figures(both[k]);
        writes_f(both[k]);
        refusals(both[k]);
    }
    small_figures();
    printf("%d checks from C, %d wrong\n", checks, wrong);
    return wrong != 0;
}
