/*
 * calls.c - one call again and again, or how deep its stack goes, on the sample root: what a call
 * costs beside what it cost in another build of the library.
 *
 *   gcc -O2 -Ihosts/c bench/calls.c target/staticlib/libmaltorhu.a -o target/calls
 *   target/calls NAME COUNT      works the call COUNT times; under valgrind --tool=callgrind the
 *                                instructions of one are those of 1,100 less those of 100, by 1,000
 *   LD_BIND_NOW=1 target/calls stack
 *                                the deepest byte of a painted stack that each call wrote
 *   target/calls                 the names
 *
 * Exit 2 for a bad command line, 1 if a call doesn't answer as its name says.
 */
#include <stdint.h>
#include <stdio.h>
#include <stdlib.h>
#include <string.h>
#include <ucontext.h>

#include "maltorhu.h"

enum { ROOT = 109, AREA = 173, LARGE = 3 * (2 + 256) + 4095 * (13 + 11 + 11) };

static uint16_t root[ROOT], large_root[ROOT], area[AREA], large[LARGE];
static uint16_t status[10], passed[4], buffer[512];
static uint32_t cursors[64], found[64];
static const uint16_t account[1] = {7};
static const uint16_t entry[3] = {7, 0x4142, 0x4344}, line[3] = {7, 20, 1};
static const uint16_t low[3] = {10, 1, 2}, high[3] = {4000, 1, 2}, low_line[3] = {10, 20, 1};

/* The sample root, with its capacities 5, 5, 4 or all of them 4,095. */
static void make_root(uint16_t *r, uint16_t masters, uint16_t lines)
{
    const uint16_t items[] = {4, 3, 2, 1, 2, 1, 1, 1, 3, 2}, accounts[] = {1, masters, 2, 1, 0, 1, 4};
    const uint16_t dates[] = {2, masters, 1, 2, 0, 2}, details[] = {3, lines, 3, 0, 2, 1, 2, 3};
    const uint16_t paths[] = {1, 1, 2, 2, 2, 0};
    memcpy(r, items, sizeof items);
    memcpy(r + 10, accounts, sizeof accounts);
    memcpy(r + 43, dates, sizeof dates);
    memcpy(r + 76, details, sizeof details);
    memcpy(r + 97, paths, sizeof paths);
}

static void get(uint16_t set, uint16_t mode, uint32_t record, size_t room)
{
    dbget(root, ROOT, area, AREA, cursors, 64, set, mode, record, account, 1, buffer, room, status, 10);
}

static void put(uint16_t set, const uint16_t *words, size_t count, size_t area_words)
{
    dbput(root, ROOT, area, area_words, cursors, 64, set, words, count, status, 10, passed, 4);
}

static void find(uint16_t set, uint16_t item, size_t words)
{
    dbfind(root, ROOT, area, AREA, cursors, 64, set, item, account, words, status, 10);
}

static void put_large(uint16_t set, const uint16_t *words)
{
    dbput(large_root, ROOT, large, LARGE, cursors, 64, set, words, 3, status, 10, passed, 4);
}

/* From record `from` on in the master of 4,095 records and two entries. */
static void sparse(uint16_t mode, uint32_t from)
{
    cursors[0] = from;
    dbget(large_root, ROOT, large, LARGE, cursors, 64, 1, mode, 0, account, 0, buffer, 512, status, 10);
}

static void make(void) { dbmake(root, ROOT, area, AREA, status, 10); }
static void make_short(void) { dbmake(root, ROOT - 1, area, AREA, status, 10); }
static void find_chain(void) { find(3, 1, 1); }
static void find_no_set(void) { find(4, 1, 1); }
static void find_no_item(void) { find(3, 3, 1); }
static void find_no_value(void) { find(3, 1, 0); }
static void get_chained(void) { memcpy(cursors, found, sizeof found); get(3, 5, 0, 512); }
static void get_again(void) { get(3, 1, 0, 512); }
static void get_no_set(void) { get(4, 1, 0, 512); }
static void get_bad_cursor(void) { cursors[8] = 99; get(3, 1, 0, 512); cursors[8] = 0; }
static void get_no_path(void) { get(3, 5, 0, 512); }
static void get_no_room(void) { get(3, 4, 1, 2); }
static void get_no_mode(void) { get(3, 9, 1, 512); }
static void get_above(void) { sparse(2, 10); }
static void get_below(void) { sparse(3, 4000); }
static void put_no_set(void) { put(4, entry, 3, AREA); }
static void put_short_area(void) { put(1, entry, 3, AREA - 1); }
static void put_automatic(void) { put(2, entry, 1, AREA); }
static void put_full(void) { put(3, line, 3, AREA); }
static void update_no_set(void) { dbupdate(root, ROOT, area, AREA, cursors, 64, 4, entry, 3, status, 10); }
static void delete_no_set(void) { dbdelete(root, ROOT, area, AREA, cursors, 64, 4, status, 10); }

static void put_and_delete(void)
{
    put_large(3, low_line);
    dbdelete(large_root, ROOT, large, LARGE, cursors, 64, 3, status, 10);
}

static void update_line(void) { dbupdate(root, ROOT, area, AREA, cursors, 64, 3, line, 3, status, 10); }
static void delete_line(void) { dbdelete(root, ROOT, area, AREA, cursors, 64, 3, status, 10); }
static void put_entry(void) { put(1, entry, 3, AREA); }
static void nothing(void) { }

static const struct { const char *name; void (*call)(void); int answer; } calls[] = {
    {"make", make, 0}, {"make_short", make_short, -91},
    {"find", find_chain, 0}, {"find_no_set", find_no_set, -21}, {"find_no_item", find_no_item, -52},
    {"find_no_value", find_no_value, -95},
    {"get_chained", get_chained, 0}, {"get_again", get_again, 0}, {"get_no_set", get_no_set, -21},
    {"get_bad_cursor", get_bad_cursor, -93}, {"get_no_path", get_no_path, -94},
    {"get_no_room", get_no_room, 50}, {"get_no_mode", get_no_mode, -31},
    {"get_above", get_above, 0}, {"get_below", get_below, 0},
    {"put_no_set", put_no_set, -21}, {"put_short_area", put_short_area, -92},
    {"put_automatic", put_automatic, -24}, {"put_full", put_full, 16},
    {"update_no_set", update_no_set, -21}, {"delete_no_set", delete_no_set, -21},
    {"put_and_delete", put_and_delete, 0},
};

/* What the calls are worked on: an account, four lines of it, and the two entries far apart. */
static void fill(void)
{
    make();
    put_entry();
    for (int i = 0; i < 4; i++) put(3, line, 3, AREA);
    find_chain();
    memcpy(found, cursors, sizeof found);
    memset(cursors, 0, sizeof cursors);
    dbmake(large_root, ROOT, large, LARGE, status, 10);
    put_large(1, low);
    put_large(1, high);
    memset(cursors, 0, sizeof cursors);
}

static unsigned char stack[1 << 18];
static ucontext_t back, there;

/* How deep a call's stack goes. */
static size_t depth(void (*call)(void))
{
    size_t clean = 0;
    memset(stack, 0xA5, sizeof stack);
    getcontext(&there);
    there.uc_stack.ss_sp = stack;
    there.uc_stack.ss_size = sizeof stack;
    there.uc_link = &back;
    makecontext(&there, call, 0);
    swapcontext(&back, &there);
    while (clean < sizeof stack && stack[clean] == 0xA5) clean++;
    return sizeof stack - clean;
}

static void depths(void)
{
    const struct { const char *name; void (*call)(void); } steps[] = {
        {"dbmake", make}, {"dbput, an entry", put_entry}, {"dbput, a line", put_full}, {"dbfind", find_chain},
        {"dbget", get_again}, {"dbupdate", update_line}, {"dbdelete", delete_line},
    };
    const size_t none = depth(nothing);
    for (size_t i = 0; i < sizeof steps / sizeof *steps; i++) {
        const size_t deep = depth(steps[i].call);
        if (steps[i].call == find_chain) get(3, 5, 0, 512);
        printf("%-16s %6zu bytes, answered %d\n", steps[i].name, deep - none, (int16_t)status[0]);
    }
}

int main(int count, char **words)
{
    make_root(root, 5, 4);
    make_root(large_root, 4095, 4095);
    if (count == 2 && !strcmp(words[1], "stack")) return depths(), 0;
    fill();
    for (size_t i = 0; i < sizeof calls / sizeof *calls; i++) {
        if (count == 1) puts(calls[i].name);
        if (count != 3 || strcmp(words[1], calls[i].name)) continue;
        if (calls[i].call == get_again) get(3, 4, 1, 512);
        for (long n = atol(words[2]); 0 < n; n--) calls[i].call();
        if ((int16_t)status[0] == calls[i].answer) return 0;
        fprintf(stderr, "calls: %s answers %d\n", calls[i].name, (int16_t)status[0]);
        return 1;
    }
    if (count != 1) fputs("calls: wanted is a call's name and a count, or stack\n", stderr);
    return count == 1 ? 0 : 2;
}
