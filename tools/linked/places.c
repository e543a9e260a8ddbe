/*
 * A host that has the linked call lay a report on settings into a number of places, and prints the refusal and every place. Its input
 * is two bytes for that number, high byte first, and then the settings. It also looks at the places past those that it lends, and at
 * the settings: none of these may be written to.
 */
#include "vorstelpijp.h"

/* The calls of the C library that are used; no header, so that any C compiler for x86-64 will do. */
long read(int file, void *into, unsigned long most);
int printf(const char *form, ...);

enum { COUNT = 2, MOST_PLACES = 1024, PAST = 512, MOST_SETTINGS = 64 * 16 };

/* What every place holds before. */
static const u64 untouched = 0xa5a5a5a5a5a5a5a5;

/* One byte more than a report takes, so that an input too long is noticed; and once more, as it was read. */
static u8 input[COUNT + MOST_SETTINGS + 1], kept[sizeof input];
static u64 places[MOST_PLACES + PAST];

static const char *trouble(unsigned long lent)
{
    for (unsigned long k = lent; k < MOST_PLACES + PAST; k++)
        if (places[k] != untouched)
            return "a place was written to that was not lent";
    for (unsigned long k = 0; k < sizeof input; k++)
        if (input[k] != kept[k])
            return "a setting was written to";
    return 0;
}

static void print_report(unsigned long size)
{
    const unsigned long asked = 256 * input[0] + input[1], lent = asked < MOST_PLACES ? asked : MOST_PLACES;
    for (unsigned long k = 0; k < MOST_PLACES + PAST; k++)
        places[k] = untouched;
    printf("%d\n", settings_report(input + COUNT, size - COUNT, places, lent));
    for (unsigned long k = 0; k < lent; k++)
        printf("%016llx\n", places[k]);
    if (trouble(lent))
        printf("%s\n", trouble(lent));
}

int main(void)
{
    unsigned long size = 0;
    long got;
    while ((got = read(0, input + size, sizeof input - size)) > 0)
        size += got;
    for (unsigned long k = 0; k < sizeof input; k++)
        kept[k] = input[k];
    if (size < COUNT)
        printf("no room\n");
    else
        print_report(size);
    return 0;
}
