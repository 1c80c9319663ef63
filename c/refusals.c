/* Makes each allocation fail, one at a time: nothing crashes or leaks, the call returns the error, and the table is unchanged.
 * Link with -Wl,--wrap=malloc,--wrap=realloc. The argument limits the number of allocations that are tried. */
#include "routes.h"
#include <stdio.h>
#include <stdlib.h>
#include <string.h>

#define NETWORKS 120
#define HIGH UINT64_C(0x20010db800000000)

void *__real_malloc(size_t size);
void *__real_realloc(void *block, size_t size);
static long left = -1, asked, refused, runs;

static int is_refused(void) {
    asked++;
    return left >= 0 && left-- == 0;
}

void *__wrap_malloc(size_t size) { return is_refused() ? NULL : __real_malloc(size); }
void *__wrap_realloc(void *block, size_t size) { return is_refused() ? NULL : __real_realloc(block, size); }

#define WANT(x) do { if (!(x)) { printf("request %ld: line %d: %s\n", runs, __LINE__, #x); exit(1); } } while (0)

static uint32_t addr_of(uint32_t i) { return i * 2654435761u; }
static uint8_t len_of(uint32_t i) { return (uint8_t)(8 + i % 25); }

/* An `add`, repeated if an allocation failed: the first call left the table and the change unchanged. */
static void added(routes_table *t, uint32_t i) {
    routes_route before = {0}, after = {0}, now = {0};
    routes_change c = {77, 78};
    uint32_t was = routes_get4(t, addr_of(i), &before);
    uint32_t code = routes_add4(t, addr_of(i), len_of(i), i, 100, &c);
    if (code == ROUTES_NO_MEMORY) {
        refused++;
        WANT(c.before == 77 && c.after == 78);
        WANT(routes_get4(t, addr_of(i), &after) == was && memcmp(&before, &after, sizeof before) == 0);
        code = routes_add4(t, addr_of(i), len_of(i), i, 100, &c);
    }
    WANT(code == ROUTES_OK && routes_get4(t, addr_of(i), &now) == ROUTES_OK && now.hop == i);
}

/* An IPv6 `add`, which is repeated in the same way. */
static void added6(routes_table *t) {
    routes_route r = {0};
    routes_change c = {77, 78};
    uint32_t code = routes_add6(t, HIGH, 0, 32, 5, 100, &c);
    if (code == ROUTES_NO_MEMORY) {
        refused++;
        WANT(c.before == 77 && c.after == 78 && routes_get6(t, HIGH, 1, &r) == ROUTES_MISSING);
        code = routes_add6(t, HIGH, 0, 32, 5, 100, &c);
    }
    WANT(code == ROUTES_OK && routes_get6(t, HIGH, 1, &r) == ROUTES_OK && r.hop == 5 && r.family == 6);
}

/* A list and a reply: if an allocation fails, the list is unchanged, and the reply is a beginning. */
static void told(routes_table *t) {
    routes_piece p = {0};
    static const uint8_t line[] = "list 0.0.0.0/0";
    static uint8_t whole[16384], cut[16384];
    uint32_t code = routes_flat(t);
    if (code == ROUTES_NO_MEMORY) {
        refused++;
        WANT(routes_piece_at(t, 0, &p) == ROUTES_MISSING);
        code = routes_flat(t);
    }
    WANT(code == ROUTES_OK && routes_piece_at(t, 0, &p) == ROUTES_OK);
    code = routes_line(t, line, sizeof line - 1);
    size_t some = routes_reply(t, 0, cut, sizeof cut);
    if (code == ROUTES_NO_MEMORY) refused++;
    WANT(code == ROUTES_OK || code == ROUTES_NO_MEMORY);
    long count = left;
    left = -1;
    WANT(routes_line(t, line, sizeof line - 1) == ROUTES_OK);
    left = count;
    size_t all = routes_reply(t, 0, whole, sizeof whole);
    WANT(some <= all && memcmp(cut, whole, some) == 0 && (code == ROUTES_NO_MEMORY || some == all));
}

/* Carries out a line. If it finds no memory, it is refused, or a beginning of its reply is stored. Then it is carried out again. */
static void line_told(routes_table *t, const char *line) {
    static uint8_t whole[1 << 17], cut[1 << 17];
    uint32_t code = routes_line(t, (const uint8_t *)line, strlen(line));
    size_t some = routes_reply(t, 0, cut, sizeof cut);
    int was_refused = code == ROUTES_OK && some == 8 && memcmp(cut, "refused\n", 8) == 0;
    WANT(code == ROUTES_OK || code == ROUTES_NO_MEMORY);
    if (code == ROUTES_OK && !was_refused) return;
    refused++;
    WANT(routes_line(t, (const uint8_t *)line, strlen(line)) == ROUTES_OK);
    size_t all = routes_reply(t, 0, whole, sizeof whole);
    WANT(was_refused || *line == 'a' || (some <= all && memcmp(cut, whole, some) == 0));
}

/* Lines: `add` has added its route, at the latest when it is carried out again. */
static void lines_told(routes_table *t) {
    routes_route r = {0};
    routes_change c = {0};
    line_told(t, "add 192.0.2.0/24 7");
    WANT(routes_get4(t, 0xc0000201, &r) == ROUTES_OK && r.hop == 7 && r.len >= 24);
    line_told(t, "own 7");
    line_told(t, "flat");
    WANT(routes_del4(t, 0xc0000200, 24, 7, &c) == ROUTES_OK);
}

/* A list of this kind. */
static uint32_t made(routes_table *t, int kind) {
    switch (kind) {
    case 0: return routes_list4(t, 0, 0);
    case 1: return routes_cover4(t, addr_of(1), 32);
    case 2: return routes_from4(t, 0, 0, 50);
    case 3: return routes_after4(t, 0, 0, 50);
    case 4: return routes_all4(t, addr_of(1), len_of(1));
    case 5: return routes_governed4(t, 0, 0);
    case 6: return routes_own(t, 1);
    case 7: return routes_least(t);
    case 8: return routes_list6(t, 0, 0, 0);
    case 9: return routes_cover6(t, HIGH, 0, 64);
    case 10: return routes_from6(t, 0, 0, 0, 50);
    case 11: return routes_after6(t, 0, 0, 0, 50);
    case 12: return routes_all6(t, HIGH, 0, 32);
    default: return routes_governed6(t, HIGH, 0, 32);
    }
}

/* Lists of routes: if an allocation fails, the list is unchanged, and the next try makes it. */
static void listed(routes_table *t) {
    for (int kind = 0; kind < 14; kind++) {
        routes_route before = {0}, after = before;
        uint32_t was = routes_route_at(t, 0, &before), code = ROUTES_NO_MEMORY;
        for (int tries = 0; code == ROUTES_NO_MEMORY && tries < 2; tries++) {
            code = made(t, kind);
            if (code != ROUTES_NO_MEMORY) break;
            refused++;
            WANT(routes_route_at(t, 0, &after) == was && memcmp(&before, &after, sizeof before) == 0);
        }
        WANT(code == ROUTES_OK && routes_route_at(t, 0, &after) == ROUTES_OK);
    }
}

/* Another handle of an index: if an allocation fails, it stays closed, and the next try opens it. */
static void shared(routes_index *index) {
    routes_index other = ROUTES_INDEX;
    uint64_t hop = 77, same = 78;
    uint32_t code = routes_index_share(&other, index);
    if (code == ROUTES_NO_MEMORY) {
        refused++;
        WANT(other.at == NULL && !other.is_open);
        code = routes_index_share(&other, index);
    }
    WANT(code == ROUTES_OK && routes_index_hop4(&other, addr_of(1), &hop) == ROUTES_OK);
    routes_index_close(&other);
    WANT(routes_index_hop4(index, addr_of(1), &same) == ROUTES_OK && same == hop);
}

/* An index: if an allocation fails, it stays closed, and the next try opens it. Its lookups do not allocate. */
static void indexed(routes_table *t) {
    routes_index index = ROUTES_INDEX;
    uint32_t code = routes_index_open(&index, t);
    uint64_t hop = 0;
    if (code == ROUTES_NO_MEMORY) {
        refused++;
        WANT(index.at == NULL && !index.is_open);
        code = routes_index_open(&index, t);
    }
    WANT(code == ROUTES_OK);
    long before = asked;
    for (uint32_t i = 0; i < NETWORKS; i++) {
        routes_route r = {0};
        WANT(routes_get4(t, addr_of(i), &r) == ROUTES_OK && routes_index_hop4(&index, addr_of(i), &hop) == ROUTES_OK && hop == r.hop);
    }
    WANT(asked == before);
    shared(&index);
    routes_index_close(&index);
}

static uint32_t follow(routes_follower *f, const char *line) { return routes_follower_line(f, (const uint8_t *)line, strlen(line)); }

/* The lines of two changes. The first line that fails returns the error, and is the last line. */
static uint32_t followed(routes_follower *f) {
    static const char *lines[] = {"set 10.0.0.0/8 1", "set 10.0.0.0/16 2", "ok", "unset 10.0.0.0/12", "ok"};
    uint32_t code = ROUTES_OK;
    for (size_t i = 0; code == ROUTES_OK && i < sizeof lines / sizeof *lines; i++) code = follow(f, lines[i]);
    return code;
}

/* A follower's list of routes: if an allocation fails, it is unchanged, and the next try makes it. Lookups do not allocate. */
static void least_of(routes_follower *f) {
    routes_route r = {0};
    uint32_t hop = 77;
    long before = asked;
    WANT(routes_follower_get4(f, 0x0a100000, &hop) == ROUTES_OK && hop == 1 && routes_follower_get4(f, 0x0a010000, &hop) == ROUTES_MISSING && hop == 1);
    WANT(asked == before);
    if (routes_follower_least(f) == ROUTES_NO_MEMORY) {
        refused++;
        WANT(routes_follower_route_at(f, 0, &r) == ROUTES_MISSING && routes_follower_least(f) == ROUTES_OK);
    }
    WANT(routes_follower_read(f, 0, &r, 1) == 1 && r.hop == 1 && r.low == 0x0a000000 && r.len == 8 && routes_follower_read(f, 1, &r, 1) == 1);
    WANT(r.hop == ROUTES_DROP && r.low == 0x0a000000 && r.len == 12 && routes_follower_read(f, 2, &r, 1) == 0);
}

/* A follower: a line whose allocation fails is a fault; a list and an index are tried again. */
static void told_of(void) {
    routes_follower f = ROUTES_FOLLOWER;
    routes_index index = ROUTES_INDEX;
    routes_piece p = {0};
    uint32_t code = ROUTES_NO_MEMORY;
    for (int tries = 0; code == ROUTES_NO_MEMORY && tries < 2; tries++) {
        uint32_t opened = routes_follower_open(&f);
        code = opened == ROUTES_OK ? followed(&f) : opened;
        if (code == ROUTES_OK) break;
        refused++;
        WANT(code == ROUTES_NO_MEMORY && (opened != ROUTES_OK || follow(&f, "ok") == ROUTES_FAILED));
        routes_follower_close(&f);
        WANT(f.at == NULL && !f.is_open);
    }
    WANT(code == ROUTES_OK);
    if (routes_follower_flat(&f) == ROUTES_NO_MEMORY) {
        refused++;
        WANT(routes_follower_piece_at(&f, 0, &p) == ROUTES_MISSING && routes_follower_flat(&f) == ROUTES_OK);
    }
    WANT(routes_follower_piece_at(&f, 0, &p) == ROUTES_OK && p.hop == 1 && p.low == 0x0a100000 && p.len == 12);
    least_of(&f);
    if (routes_follower_index(&index, &f) == ROUTES_NO_MEMORY) {
        refused++;
        WANT(!index.is_open && routes_follower_index(&index, &f) == ROUTES_OK);
    }
    routes_index_close(&index);
    routes_follower_close(&f);
}

/* Runs all of it with one allocation failing, and returns the number of allocations. */
static long tried(long request) {
    routes_table t = ROUTES_TABLE;
    routes_change c = {0};
    left = request;
    asked = 0;
    uint32_t code = routes_open(&t);
    if (code == ROUTES_NO_MEMORY) {
        refused++;
        WANT(t.at == NULL && !t.is_open);
        code = routes_open(&t);
    }
    WANT(code == ROUTES_OK);
    for (uint32_t i = 0; i < NETWORKS; i++) added(&t, i);
    added6(&t);
    told(&t);
    lines_told(&t);
    listed(&t);
    indexed(&t);
    told_of();
    long all = asked;
    for (uint32_t i = 0; i < NETWORKS; i++) WANT(routes_del4(&t, addr_of(i), len_of(i), i, &c) == ROUTES_OK);
    WANT(asked == all); /* a `del` does not allocate */
    routes_close(&t);
    return all;
}

int main(int argc, char **argv) {
    long most = argc > 1 ? atol(argv[1]) : 1000000;
    while (runs < most && runs < tried(runs)) runs++;
    printf("%ld runs, %ld refusals, no difference\n", runs, refused);
    return refused == 0;
}
