/*
 * A host that knows the proved code by its header alone. It replays a batch from standard input through the linked calls and prints
 * the listing of it. What a character time shows it also works out itself from the controller's fields, by document 01's rules, so
 * that every field is looked at. It does the records that the calls are for, and of the bus cycles the control writes.
 */
#include "vorstelpijp.h"

/* The calls of the C library that are used; no header, so that any C compiler for x86-64 will do. */
long read(int file, void *into, unsigned long most);
int printf(const char *form, ...);

enum { MOST = 4096, RECORD = 4, BODY = 6, ADDRESSES = 16384 };
enum { WRITE = 1, READ, CLOCK, STRIKE, RESET, BUS, FETCH, LOCATE = 9 };
enum { CONTROL = 0xffc0, RATES = 0x1800, FAST = 0x1000, M0 = 0x2000, M1 = 0x4000, TY = 0x8000 };

/* The limits of the two dividers, by V2 V1 V0, and the fetches within which each divider has counted. */
static const struct { u8 x, y; } limits[8] = {{1, 12}, {3, 1}, {1, 3}, {2, 1}, {1, 2}, {1, 1}, {1, 1}, {1, 1}};
enum { BOTH_COUNTED = 96 };

static struct controller chip;
static u16 bits;
static struct display counter;

/* The answer to the record at hand. */
static unsigned refusal;
static u8 body[BODY];
static const char *trouble;

static void read_byte(int rs)
{
    struct reading got = controller_read(chip, rs);
    body[0] = got.driven;
    body[1] = got.value;
    chip = got.controller;
}

static unsigned address(void)
{
    const struct scan *s = &chip.scan;
    if (chip.regs.held[8] & 4)
        return 256 * ((s->start / 256 + s->row) % 64) + (s->start + s->column) % 256;
    return (s->base + s->column) % ADDRESSES;
}

static _Bool in_picture(void)
{
    return !chip.scan.adjusting && chip.scan.row < chip.regs.held[6] && chip.scan.column < chip.regs.held[1];
}

static _Bool blink_allows(void)
{
    switch (chip.regs.held[10] / 32 % 4) {
    case 0:
        return 1;
    case 1:
        return 0;
    case 2:
        return chip.scan.field / 8 % 2 == 0;
    default:
        return chip.scan.field / 16 % 2 == 0;
    }
}

static _Bool at_cursor(void)
{
    const u8 *r = chip.regs.held;
    return in_picture() && address() == 256u * r[14] + r[15] && r[10] % 32 <= chip.scan.line && chip.scan.line <= r[11]
        && blink_allows();
}

static void show_character(void)
{
    const u8 delays = chip.regs.held[8];
    _Bool display = delays & 16 ? chip.left.picture : in_picture();
    _Bool cursor = delays & 32 ? chip.left.cursor : at_cursor();
    body[0] = address() / 256;
    body[1] = address() % 256;
    body[2] = chip.scan.line;
    body[3] = in_picture() + 2 * display + 4 * cursor + 8 * (chip.sync.hsync > 0) + 16 * (chip.sync.vsync > 0);
    struct outputs o = controller_outputs(chip);
    u8 told = o.picture + 2 * o.display + 4 * o.cursor + 8 * o.hsync + 16 * o.vsync;
    if (o.ma != address() || o.ra != body[2] || told != body[3])
        trouble = "outputs that the fields do not show";
}

static void strike(void)
{
    chip = controller_strike(chip);
    struct strike newest = controller_newest(chip);
    body[0] = newest.latch / 256;
    body[1] = newest.latch % 256;
    body[2] = newest.inside;
}

static void locate(void)
{
    struct found found = controller_locate(chip);
    refusal = found.refusal;
    body[0] = found.row;
    body[1] = found.column;
}

static void reset(int multiplexer)
{
    if (!multiplexer) {
        chip = controller_reset(chip);
        return;
    }
    bits = 0;
    counter = (struct display){0, 0, 0};
}

/* A control write, judged with the bits before it. */
static void bus(unsigned at, int reading)
{
    if (reading || at < CONTROL || at >= CONTROL + 32) {
        trouble = "a bus cycle that this host does not do";
        return;
    }
    u16 bit = 1 << (at - CONTROL) / 2;
    body[0] = 7;
    body[1] = bits & RATES ? 8 : 16;
    body[2] = 4 + 2 * (bits & TY && bits & RATES);
    bits = at % 2 ? bits | bit : bits & ~bit;
}

static void fetch(u16 n)
{
    counter = display_fetches(bits, counter, n);
    const unsigned side = bits & M1 ? 256 : bits & M0 ? 128 : 64;
    body[0] = counter.b / 256;
    body[1] = counter.b % 256;
    body[2] = counter.b / side / side % 2;
    body[3] = counter.b % side;
    body[4] = counter.b / side % side;
    body[5] = !(bits & FAST);
    if (n >= BOTH_COUNTED && (counter.x >= limits[bits % 8].x || counter.y >= limits[bits % 8].y))
        trouble = "a divider past its limit";
}

static void answer(const u8 record[RECORD])
{
    const u16 n = 256 * record[1] + record[2];
    refusal = 0;
    trouble = 0;
    for (int k = 0; k < BODY; k++)
        body[k] = 0;
    switch (record[0]) {
    case WRITE: chip = controller_write(chip, record[2], record[3]); break;
    case READ: read_byte(record[2]); break;
    case CLOCK: chip = controller_clock(chip, n); show_character(); break;
    case STRIKE: strike(); break;
    case RESET: reset(record[2]); break;
    case BUS: bus(n, record[3]); break;
    case FETCH: fetch(n); break;
    case LOCATE: locate(); break;
    default: trouble = "a kind that this host does not do";
    }
}

static void print_answer(u8 kind)
{
    if (trouble) {
        printf("%s\n", trouble);
        return;
    }
    printf("%02x%02x", kind, refusal);
    for (int k = 0; k < BODY; k++)
        printf("%02x", body[k]);
    printf("\n");
}

int main(void)
{
    static u8 batch[MOST];
    long size = 0, got;
    while ((got = read(0, batch + size, MOST - size)) > 0)
        size += got;
    chip = controller_fresh();
    for (long at = 0; at + RECORD <= size; at += RECORD) {
        answer(batch + at);
        print_answer(batch[at]);
    }
    printf("end %d\n", size % RECORD ? 3 : 0);
    return 0;
}
