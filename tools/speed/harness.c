/*
 * Measures the proved code beside the same rules stepped plainly in Rust, both in one process.
 * First both sides have to come to the same results; then each is timed, in turn with the other, and
 * the best of several times is printed: a line for each row, its name and the nanoseconds of each side.
 */
#include "vorstelpijp.h"

/* Where the scan is, with its sync counts. */
struct place { struct scan scan; struct sync sync; };

/* The limits of the display counter's two dividers. */
struct mode { u8 x, y; };

/* The calls of plain.rs; held is R0 to R15. Only pointers and numbers cross them. */
void rust_clock(struct place *at, const u8 held[16], unsigned n);
void rust_locate(struct found *out, const u8 held[16], unsigned latch);
void rust_fetches(struct display *at, const struct mode *mode, unsigned n);
void rust_report(u64 places[], const u8 settings[], unsigned n);

/* The calls of the C library that are used; no header, so that any C compiler for x86-64 will do. */
struct moment { long seconds, nanoseconds; };
int clock_gettime(int which, struct moment *now);
int printf(const char *form, ...);
int fflush(void *every);

enum { MONOTONIC = 1, CALL = 65535, ROUNDS = 11, SAMPLE = 20000000 };
enum { PROVED, RUST, SIDES };

/* What the sides work on. */
static struct controller chip;
static const u8 *held;
static struct place places[SIDES];
static struct found cells[SIDES];
static struct display counters[SIDES];
static u16 control_bits;
static struct mode mode;
enum { HELD = 16, BATCH = 64, ROW = 7, PLACES = ROW * (BATCH + 1) };
static u8 batch[BATCH * HELD];
static u64 reports[SIDES][PLACES];

static void proved_clock(unsigned n)
{
    chip = controller_clock(chip, n);
    places[PROVED] = (struct place){chip.scan, chip.sync};
}

/* One call of each kind on each side. */
static void clock_proved(void) { proved_clock(CALL); }
static void clock_rust(void) { rust_clock(&places[RUST], held, CALL); }
static void locate_proved(void) { cells[PROVED] = controller_locate(chip); }
static void locate_rust(void) { rust_locate(&cells[RUST], held, controller_newest(chip).latch); }
static void fetch_proved(void) { counters[PROVED] = display_fetches(control_bits, counters[PROVED], CALL); }
static void fetch_rust(void) { rust_fetches(&counters[RUST], &mode, CALL); }

static void report_proved(void) { settings_report(batch, sizeof batch, reports[PROVED], PLACES); }
static void report_rust(void) { rust_report(reports[RUST], batch, BATCH); }

typedef void (*work)(void);
static const work clocks[SIDES] = {clock_proved, clock_rust};
static const work locates[SIDES] = {locate_proved, locate_rust};
static const work fetches[SIDES] = {fetch_proved, fetch_rust};
static const work counts[SIDES] = {report_proved, report_rust};

static double time_of(work call, long calls)
{
    struct moment begin, end;
    clock_gettime(MONOTONIC, &begin);
    for (long i = 0; i < calls; i++)
        call();
    clock_gettime(MONOTONIC, &end);
    return (end.seconds - begin.seconds) * 1e9 + (end.nanoseconds - begin.nanoseconds);
}

/* How many calls make a sample long enough to time. */
static long calls_for_a_sample(work call)
{
    long calls = 1;
    while (time_of(call, calls) < SAMPLE)
        calls *= 2;
    return calls;
}

/* Prints a row: the best time of each side, for one of the units that a call has. */
static void measure(const char *row, const work sides[SIDES], double units)
{
    long calls[SIDES];
    double best[SIDES];
    for (int side = 0; side < SIDES; side++) {
        calls[side] = calls_for_a_sample(sides[side]);
        best[side] = time_of(sides[side], calls[side]) / calls[side];
    }
    for (int round = 1; round < ROUNDS; round++)
        for (int side = 0; side < SIDES; side++) {
            double took = time_of(sides[side], calls[side]) / calls[side];
            if (took < best[side])
                best[side] = took;
        }
    printf("%s\t%.6f\t%.6f\n", row, best[PROVED] / units, best[RUST] / units);
    fflush(0);
}

static int differs(const char *row, unsigned long step, int same)
{
    if (same)
        return 0;
    printf("differs\t%s\t%lu\n", row, step);
    return 1;
}

static int same_place(struct place a, struct place b)
{
    return a.scan.column == b.scan.column && a.scan.line == b.scan.line && a.scan.row == b.scan.row
        && a.scan.base == b.scan.base && a.scan.start == b.scan.start && a.scan.field == b.scan.field
        && a.scan.adjusting == b.scan.adjusting && a.sync.hsync == b.sync.hsync && a.sync.vsync == b.sync.vsync;
}

static int same_cell(struct found a, struct found b)
{
    return a.refusal == b.refusal && a.row == b.row && a.column == b.column;
}

static int same_counter(struct display a, struct display b)
{
    return a.b == b.b && a.x == b.x && a.y == b.y;
}

/* The numbers of times that the comparison goes on by, in turn. */
static const u16 strides[] = {0, 1, 2, 3, 7, 61, 64, 257, 1000, 4099, 65535};
enum { STRIDES = sizeof strides / sizeof strides[0], TURNS = 8 };

/* Both sides at the place that a reset with these registers leaves. */
static void reset_with(const u8 wanted[16])
{
    held = wanted;
    chip = (struct controller){0};
    for (int k = 0; k < 16; k++)
        chip.regs.held[k] = held[k];
    chip = controller_reset(chip);
    for (int side = 0; side < SIDES; side++)
        places[side] = (struct place){chip.scan, chip.sync};
}

static int compare_clocks(const char *row, const u8 wanted[16])
{
    unsigned long gone = 0;
    reset_with(wanted);
    for (int turn = 0; turn < TURNS * STRIDES; turn++) {
        u16 n = strides[turn % STRIDES];
        gone += n;
        proved_clock(n);
        rust_clock(&places[RUST], held, n);
        if (differs(row, gone, same_place(places[RUST], places[PROVED])))
            return 1;
    }
    return 0;
}

/* A strike after that many character times, located on both sides. */
static int compare_locates(const char *row, const u8 wanted[16], unsigned long time)
{
    reset_with(wanted);
    unsigned long left = time;
    for (; left > CALL; left -= CALL)
        chip = controller_clock(chip, CALL);
    chip = controller_strike(controller_clock(chip, left));
    locate_proved();
    locate_rust();
    return differs(row, time, same_cell(cells[RUST], cells[PROVED]));
}

static int compare_fetches(const char *row, u16 bits, struct mode limits)
{
    unsigned long gone = 0;
    control_bits = bits;
    mode = limits;
    for (int side = 0; side < SIDES; side++)
        counters[side] = (struct display){0, 0, 0};
    for (int turn = 0; turn < TURNS * STRIDES; turn++) {
        u16 n = strides[turn % STRIDES];
        gone += n;
        counters[PROVED] = display_fetches(control_bits, counters[PROVED], n);
        rust_fetches(&counters[RUST], &mode, n);
        if (differs(row, gone, same_counter(counters[RUST], counters[PROVED])))
            return 1;
    }
    return 0;
}

static void fill_batch(const u8 setting[HELD])
{
    for (int at = 0; at < BATCH * HELD; at++)
        batch[at] = setting[at % HELD];
}

static int compare_reports(const char *row, const u8 setting[HELD])
{
    fill_batch(setting);
    report_proved();
    report_rust();
    for (int at = 0; at < PLACES; at++)
        if (differs(row, at, reports[PROVED][at] == reports[RUST][at]))
            return 1;
    return 0;
}

/* R0 to R15 of each setting. The last three are compared and not timed: adjust lines, and frames that miss their ends. */
static const struct setting { const char *row; u8 held[16]; } settings[] = {
    {"clock-63", {63, 40, 50, 0x28, 38, 0, 25, 30, 0, 7}},
    {"clock-255", {255, 40, 50, 0x28, 38, 0, 25, 30, 0, 7}},
    {"clock-1", {1, 40, 50, 0x28, 38, 0, 25, 30, 0, 7}},
    {"clock-0", {0}},
    {"adjusting", {3, 2, 0, 0, 1, 1, 2, 0, 0, 1}},
    {"adjusting long", {7, 6, 5, 0x3f, 4, 31, 3, 2, 0, 9, 0, 0, 63, 255}},
    {"adjusting short", {2, 200, 1, 0xf1, 126, 3, 127, 5, 4, 31, 0, 0, 1, 2}},
};
enum { TIMED = 4, SETTINGS = sizeof settings / sizeof settings[0] };

/* Frames that are counted, with the character times of a whole report: the largest one, and a text screen. */
static const struct { const char *row; u8 held[HELD]; double times; } frames[] = {
    {"count-largest", {255, 255, 100, 0xff, 127, 31, 127, 100, 48, 31, 0, 31, 0, 0, 1, 1}, 64 * 1056512.0},
    {"count-screen", {63, 40, 50, 0x28, 31, 6, 25, 28, 0, 7, 0x66, 7, 0, 0, 1, 1}, 64 * 16768.0},
};
enum { COUNTED = sizeof frames / sizeof frames[0] };

/*
 * The largest picture, in either way of addressing: from row to row, and by row and column. Its addresses go round almost twice: a strike
 * in row 10 shares its latch, one in row 63 has a cell of its own. The same up to the line's last character, and a text screen.
 */
static const struct { const char *row; u8 held[HELD]; unsigned rows[2]; } pictures[] = {
    {"locate", {255, 255, 0, 0, 127, 0, 127, 0, 0, 31}, {10, 63}},
    {"locate-by-rows", {255, 255, 0, 0, 127, 0, 127, 0, 4, 31}, {10, 63}},
    {"locate-full", {254, 255, 0, 0, 127, 0, 127, 0, 0, 31}, {10, 63}},
    {"locate-screen", {63, 40, 50, 0x28, 31, 6, 25, 28, 0, 7}, {0, 10}},
};
enum { PICTURES = sizeof pictures / sizeof pictures[0], COLUMN = 20 };

/* Character times from a reset to that column of a row's first line. */
static unsigned long time_to(const u8 setting[HELD], unsigned row)
{
    return (unsigned long)row * (setting[9] + 1) * (setting[0] + 1) + COLUMN;
}

/* The two display modes, by the control bits V2 V1 V0. */
static const struct mode mode_000 = {1, 12}, mode_001 = {3, 1};

int main(void)
{
    for (int k = 0; k < SETTINGS; k++)
        if (compare_clocks(settings[k].row, settings[k].held))
            return 1;
    for (int k = 0; k < TIMED; k++) {
        reset_with(settings[k].held);
        measure(settings[k].row, clocks, CALL);
    }
    for (int k = 0; k < PICTURES; k++) {
        const char *row = pictures[k].row;
        const u8 *setting = pictures[k].held;
        for (int strike = 0; strike < 2; strike++)
            if (compare_locates(row, setting, time_to(setting, pictures[k].rows[strike])))
                return 1;
        measure(row, locates, 1);
    }
    if (compare_fetches("fetch-000", 0, mode_000))
        return 1;
    measure("fetch-000", fetches, CALL);
    if (compare_fetches("fetch-001", 1, mode_001))
        return 1;
    measure("fetch-001", fetches, CALL);
    for (int k = 0; k < SETTINGS; k++)
        if (compare_reports(settings[k].row, settings[k].held))
            return 1;
    for (int k = 0; k < COUNTED; k++) {
        if (compare_reports(frames[k].row, frames[k].held))
            return 1;
        measure(frames[k].row, counts, frames[k].times);
    }
    return 0;
}
