/*
 * The proved code as C sees it: the structs and calls of crates/exports_c, field by field in the same order. 'rt lib' in that folder makes
 * the archive, for x86-64, to link with; tools/check-linked makes it, too, as target/staticlib/libexports.a, and holds these declarations
 * to the proved ones.
 */
#ifndef VORSTELPIJP_H
#define VORSTELPIJP_H

typedef unsigned char u8;
typedef unsigned short u16;
typedef unsigned long long u64;

struct registers { u8 held[16], named; };
struct scan { u8 column, line, row; u16 base, start; u8 field; _Bool adjusting; };
struct sync { u8 hsync, vsync; };
struct facts { _Bool picture, cursor; };
struct strike { u16 latch; _Bool inside; };
struct pen { struct strike last; _Bool any, full; };

/* Begins with controller_fresh; the calls below do all the rest. */
struct controller {
    struct registers regs;
    struct scan scan;
    struct sync sync;
    struct facts left;
    struct pen pen;
};

struct found { u8 refusal, row, column; };
struct outputs { u16 ma; u8 ra; _Bool picture, display, cursor, hsync, vsync; };
/* A read drives the bus for R14 to R17 and for the status. Where driven is 0, value is 0 and says nothing of what the register holds. */
struct reading { _Bool driven; u8 value; struct controller controller; };
struct display { u16 b; u8 x, y; };

struct controller controller_fresh(void);
struct controller controller_reset(struct controller c);
struct controller controller_write(struct controller c, _Bool rs, u8 value);
struct reading controller_read(struct controller c, _Bool rs);
struct outputs controller_outputs(struct controller c);
struct controller controller_clock(struct controller c, u16 n);
struct controller controller_strike(struct controller c);
struct strike controller_newest(struct controller c);
struct found controller_locate(struct controller c);
struct display display_fetches(u16 bits, struct display from, u16 n);

/* A row of seven places for each setting of sixteen bytes, and one of totals; a lent part is its first place and how many there are. */
u8 settings_report(const u8 *settings, unsigned long settings_count, u64 *places, unsigned long places_count);

#endif
