/* Tests every call, over random steps, against a table that is a plain list of routes. */
#include "routes.h"
#include <stddef.h>
#include <stdio.h>
#include <stdlib.h>
#include <string.h>

_Static_assert(sizeof(routes_table) == 16 && offsetof(routes_table, is_open) == 8, "layout");
_Static_assert(sizeof(routes_route) == 32 && offsetof(routes_route, hop) == 16 && offsetof(routes_route, pref) == 24, "layout");
_Static_assert(offsetof(routes_route, family) == 26 && offsetof(routes_route, len) == 27, "layout");
_Static_assert(sizeof(routes_change) == 16 && offsetof(routes_change, after) == 8, "layout");
_Static_assert(sizeof(routes_piece) == 24 && offsetof(routes_piece, hop) == 16, "layout");
_Static_assert(offsetof(routes_piece, family) == 20 && offsetof(routes_piece, len) == 21, "layout");
_Static_assert(sizeof(routes_index) == 16 && offsetof(routes_index, is_open) == 8, "layout");
_Static_assert(sizeof(routes_follower) == 16 && offsetof(routes_follower, is_open) == 8, "layout");
_Static_assert(sizeof(routes_addr6) == 16 && offsetof(routes_addr6, low) == 8, "layout");

#ifndef TURNS
#define TURNS 20000
#endif
#define MOST 4096
#define MANY 40

typedef unsigned __int128 number;
struct kept {
    int family, len, pref;
    number addr;
    uint64_t hop;
};

static struct kept kept[MOST];
static size_t count;
static long checks, failed;
static uint64_t seed = 88172645463325252u;

#define CHECK(x) (checks++, (x) ? (void)0 : (failed++, (void)printf("line %d: %s\n", __LINE__, #x)))

static uint64_t drawn(void) {
    seed ^= seed << 13;
    seed ^= seed >> 7;
    return seed ^= seed << 17;
}

static int width(int family) { return family == 4 ? 32 : 128; }

static number masked(int family, number addr, int len) {
    int rest = width(family) - len;
    return rest == 128 ? 0 : addr >> rest << rest;
}

static number joined(uint64_t high, uint64_t low) { return (number)high << 64 | low; }

/* the greater preference, then the least hop */
static int beats(const struct kept *a, const struct kept *b) { return a->pref != b->pref ? a->pref > b->pref : a->hop < b->hop; }

/* the longest match among networks of at most this length */
static const struct kept *match(int family, number addr, int most) {
    const struct kept *best = NULL;
    for (const struct kept *k = kept; k < kept + count; k++) {
        if (k->family != family || k->len > most || masked(family, addr, k->len) != k->addr) continue;
        if (!best || k->len > best->len || (k->len == best->len && beats(k, best))) best = k;
    }
    return best;
}

static uint64_t hop_of(const struct kept *k) { return k ? k->hop : ROUTES_DROP; }

static uint32_t get(routes_table *t, int family, number addr, routes_route *r) {
    return family == 4 ? routes_get4(t, (uint32_t)addr, r) : routes_get6(t, (uint64_t)(addr >> 64), (uint64_t)addr, r);
}

static uint32_t add(routes_table *t, const struct kept *k, number addr, routes_change *c) {
    return k->family == 4 ? routes_add4(t, (uint32_t)addr, (uint8_t)k->len, k->hop, (uint16_t)k->pref, c)
                          : routes_add6(t, (uint64_t)(addr >> 64), (uint64_t)addr, (uint8_t)k->len, k->hop, (uint16_t)k->pref, c);
}

static uint32_t del(routes_table *t, const struct kept *k, number addr, routes_change *c) {
    return k->family == 4 ? routes_del4(t, (uint32_t)addr, (uint8_t)k->len, k->hop, c)
                          : routes_del6(t, (uint64_t)(addr >> 64), (uint64_t)addr, (uint8_t)k->len, k->hop, c);
}

/* A lookup returns the route of the model; without a match the route is unchanged. */
static void looked_up(routes_table *t, int family, number addr) {
    const struct kept *k = match(family, addr, 128);
    routes_route r, mark;
    memset(&mark, 0x5a, sizeof mark);
    r = mark;
    uint32_t code = get(t, family, addr, &r);
    CHECK(code == (k ? ROUTES_OK : ROUTES_MISSING));
    if (!k)
        CHECK(memcmp(&r, &mark, sizeof r) == 0);
    else
        CHECK(r.family == family && r.len == k->len && joined(r.high, r.low) == k->addr && r.hop == k->hop && r.pref == k->pref);
}

/* A lookup of many addresses returns the hops of single lookups, as far as there are addresses and room; the rest is unchanged. */
static void looked_up_at_once(routes_table *t) {
    uint32_t addrs4[MANY];
    routes_addr6 addrs6[MANY];
    uint64_t hops4[MANY + 1], hops6[MANY + 1];
    size_t given = drawn() % (MANY + 1), room = drawn() % (MANY + 1), answered = given < room ? given : room;
    for (size_t i = 0; i < MANY; i++) {
        const struct kept *k = count ? &kept[drawn() % count] : NULL;
        number addr = k ? k->addr ^ (drawn() & 0xff) : drawn();
        addrs4[i] = (uint32_t)addr;
        addrs6[i] = (routes_addr6){(uint64_t)(addr >> 64), (uint64_t)addr};
    }
    for (size_t i = 0; i <= MANY; i++) hops4[i] = hops6[i] = 77;
    CHECK(routes_get4_many(t, addrs4, given, hops4, room) == ROUTES_OK);
    CHECK(routes_get6_many(t, addrs6, given, hops6, room) == ROUTES_OK);
    for (size_t i = 0; i <= MANY; i++) {
        const struct kept *k4 = i < answered ? match(4, addrs4[i], 128) : NULL;
        const struct kept *k6 = i < answered ? match(6, joined(addrs6[i].high, addrs6[i].low), 128) : NULL;
        CHECK(hops4[i] == (i >= answered ? 77 : k4 ? k4->hop : ROUTES_NO_MATCH));
        CHECK(hops6[i] == (i >= answered ? 77 : k6 ? k6->hop : ROUTES_NO_MATCH));
    }
}

static uint64_t indexed(routes_index *index, int family, number addr) {
    uint64_t hop = 77;
    CHECK((family == 4 ? routes_index_hop4(index, (uint32_t)addr, &hop) : routes_index_hop6(index, (uint64_t)(addr >> 64), (uint64_t)addr, &hop)) == ROUTES_OK);
    return hop;
}

/* An index has the hops of the table, one by one and many at once. */
static void has_hops(routes_index *index) {
    uint32_t addrs4[MANY];
    routes_addr6 addrs6[MANY];
    uint64_t hops4[MANY + 1], hops6[MANY + 1];
    size_t given = drawn() % (MANY + 1), room = drawn() % (MANY + 1), answered = given < room ? given : room;
    for (size_t i = 0; i < MANY; i++) {
        const struct kept *k = count ? &kept[drawn() % count] : NULL;
        number addr = k ? k->addr ^ (drawn() & 0xff) : drawn();
        addrs4[i] = (uint32_t)addr;
        addrs6[i] = (routes_addr6){(uint64_t)(addr >> 64), (uint64_t)addr};
        CHECK(indexed(index, 4, addrs4[i]) == hop_of(match(4, addrs4[i], 128)));
        CHECK(indexed(index, 6, addr) == hop_of(match(6, addr, 128)));
    }
    for (size_t i = 0; i <= MANY; i++) hops4[i] = hops6[i] = 77;
    CHECK(routes_index_hop4_many(index, addrs4, given, hops4, room) == ROUTES_OK);
    CHECK(routes_index_hop6_many(index, addrs6, given, hops6, room) == ROUTES_OK);
    for (size_t i = 0; i <= MANY; i++) {
        CHECK(hops4[i] == (i >= answered ? 77 : hop_of(match(4, addrs4[i], 128))));
        CHECK(hops6[i] == (i >= answered ? 77 : hop_of(match(6, joined(addrs6[i].high, addrs6[i].low), 128))));
    }
}

/* Another handle of an index has the same hops, also after the first is closed. Without an index it stays closed. */
static void shared(routes_table *t) {
    routes_index index = ROUTES_INDEX, other = ROUTES_INDEX, third = ROUTES_INDEX;
    CHECK(routes_index_share(&other, &index) == ROUTES_CLOSED && !other.is_open && !index.is_open);
    CHECK(routes_index_share(&other, (routes_index *)t) == ROUTES_CLOSED && !other.is_open && t->is_open);
    CHECK(routes_index_open(&index, t) == ROUTES_OK && routes_index_share(&other, &index) == ROUTES_OK);
    CHECK(routes_index_share(&other, &index) == ROUTES_OPEN && routes_index_share(&third, &other) == ROUTES_OK);
    has_hops(&index);
    routes_index_close(&index);
    has_hops(&other);
    routes_index_close(&other);
    CHECK(other.at == NULL && !other.is_open && routes_index_share(&index, &other) == ROUTES_CLOSED);
    has_hops(&third);
    routes_index_close(&third);
}

/* An index is a snapshot: a change of the table does not reach it. A closed index returns nothing. */
static void copied(routes_table *t) {
    static routes_index index = ROUTES_INDEX;
    routes_table shut = ROUTES_TABLE;
    routes_change c = {0};
    uint32_t addr4 = 1;
    routes_addr6 addr6 = {1, 1};
    uint64_t hop = 77, was;
    CHECK(routes_index_open(&index, &shut) == ROUTES_CLOSED && !index.is_open && !shut.is_open);
    CHECK(routes_index_hop4(&index, 1, &hop) == ROUTES_CLOSED && routes_index_hop6(&index, 1, 1, &hop) == ROUTES_CLOSED);
    CHECK(routes_index_hop4_many(&index, &addr4, 1, &hop, 1) == ROUTES_CLOSED && routes_index_hop6_many(&index, &addr6, 1, &hop, 1) == ROUTES_CLOSED);
    CHECK(hop == 77 && routes_index_open(&index, t) == ROUTES_OK);
    has_hops(&index);
    was = indexed(&index, 4, 0xff000001);
    CHECK(routes_add4(t, 0xff000001, 32, 123, 65535, &c) == ROUTES_OK && indexed(&index, 4, 0xff000001) == was);
    CHECK(routes_index_open(&index, t) == ROUTES_OPEN && indexed(&index, 4, 0xff000001) == was);
    CHECK(routes_del4(t, 0xff000001, 32, 123, &c) == ROUTES_OK);
    has_hops(&index);
    routes_index_close(&index);
    CHECK(index.at == NULL && !index.is_open);
    routes_index_close(&index);
    shared(t);
}

/* The count of networks of each family is right. */
static void counted(routes_table *t) {
    size_t ipv4 = 77, ipv6 = 77, wanted[2] = {0, 0};
    for (size_t i = 0; i < count; i++) {
        size_t j = 0;
        while (kept[j].family != kept[i].family || kept[j].len != kept[i].len || kept[j].addr != kept[i].addr) j++;
        wanted[kept[i].family == 6] += i == j;
    }
    CHECK(routes_count(t, &ipv4, &ipv6) == ROUTES_OK && ipv4 == wanted[0] && ipv6 == wanted[1]);
}

/* Adds or removes one route, and checks the change. */
static void changed(routes_table *t) {
    int family = drawn() & 1 ? 4 : 6;
    number addr = family == 4 ? drawn() & 0x0303ffff : joined((drawn() & 3) << 61 | (drawn() & 0xffff), drawn() & 0xf00000000000000f);
    int len = (int)(drawn() % (width(family) + 1));
    struct kept k = {family, len, (int)(drawn() % 3), masked(family, addr, len), drawn() % 4 == 0 ? ROUTES_DROP : drawn() % 10};
    if (drawn() % 4 == 0 && count) k.addr = masked(k.family = kept[0].family, kept[0].addr, k.len = kept[0].len), addr = k.addr;
    size_t at = count, others = 0;
    for (size_t i = 0; i < count; i++)
        if (kept[i].family == k.family && kept[i].len == k.len && kept[i].addr == k.addr) {
            if (kept[i].hop == k.hop) at = i;
            else others++;
        }
    uint64_t before = hop_of(match(k.family, addr, k.len));
    routes_change c = {77, 78};
    if (drawn() % 3) {
        uint32_t code = add(t, &k, addr, &c);
        CHECK(code == (others == 8 ? ROUTES_FULL : ROUTES_OK));
        if (code == ROUTES_OK) {
            if (at == count) count++;
            kept[at] = k;
        }
    } else {
        uint32_t code = del(t, &k, addr, &c);
        CHECK(code == (at == count ? ROUTES_MISSING : ROUTES_OK));
        if (code == ROUTES_OK) kept[at] = kept[--count];
    }
    uint64_t after = hop_of(match(k.family, addr, k.len));
    CHECK((c.before == before && c.after == after) || (c.before == 77 && c.after == 78 && before == after));
    looked_up(t, k.family, addr);
    looked_up(t, k.family, addr ^ (drawn() & 0x3ff));
    looked_up(t, k.family, addr ^ ((number)(drawn() & 0xff) << (width(k.family) - 20)));
}

/* The flat list, copied in parts of 7, is that which is read by index. The room after its end is unchanged. */
static void pieces_read(routes_table *t, size_t length) {
    routes_piece p = {0}, part[7];
    size_t from = 0, got;
    do {
        memset(part, 0x5a, sizeof part);
        got = routes_read_pieces(t, from, part, 7);
        CHECK(got == (length - from < 7 ? length - from : 7));
        for (size_t i = 0; i < 7; i++) {
            if (i >= got) CHECK(part[i].hop == 0x5a5a5a5a);
            else CHECK(routes_piece_at(t, from + i, &p) == ROUTES_OK && p.high == part[i].high && p.low == part[i].low && p.hop == part[i].hop);
        }
        from += got;
    } while (got > 0);
    CHECK(from == length && routes_read_pieces(t, SIZE_MAX, part, 7) == 0);
}

/* The blocks of the flat list ascend, and have the hops of the model. The list is unchanged until it is made again. */
static void listed(routes_table *t) {
    routes_piece p = {0}, last = {0};
    size_t pieces = 0;
    CHECK(routes_flat(t) == ROUTES_OK);
    for (; routes_piece_at(t, pieces, &p) == ROUTES_OK; pieces++, last = p) {
        number addr = joined(p.high, p.low), end = addr + (((number)1 << (width(p.family) - p.len) % 128) - 1);
        const struct kept *first = match(p.family, addr, 128), *final = match(p.family, end, 128);
        CHECK(first && first->hop == p.hop && final && final->hop == p.hop);
        CHECK(masked(p.family, addr, p.len) == addr);
        CHECK(pieces == 0 || last.family < p.family || joined(last.high, last.low) < addr);
    }
    memset(&p, 0x5a, sizeof p);
    CHECK(routes_piece_at(t, pieces, &p) == ROUTES_MISSING && p.hop == 0x5a5a5a5a);
    pieces_read(t, pieces);
    for (int i = 0; i < 50; i++) {
        const struct kept *k = count ? &kept[drawn() % count] : NULL;
        if (!k) break;
        uint64_t hop = hop_of(match(k->family, k->addr, 128)), found = ROUTES_DROP;
        for (size_t at = 0; routes_piece_at(t, at, &p) == ROUTES_OK; at++)
            if (p.family == k->family && masked(k->family, k->addr, p.len) == joined(p.high, p.low)) found = p.hop;
        CHECK(hop == found);
    }
}

/* The order: ascending networks, and the routes of a network best first. */
static int order(const void *left, const void *right) {
    const struct kept *a = left, *b = right;
    if (a->family != b->family) return a->family - b->family;
    if (a->addr != b->addr) return a->addr < b->addr ? -1 : 1;
    if (a->len != b->len) return a->len - b->len;
    return beats(a, b) ? -1 : beats(b, a);
}

static int is_of(const struct kept *k, const struct kept *n) { return k->family == n->family && k->len == n->len && k->addr == n->addr; }

enum { LIST, COVER, FROM, AFTER, ALL, GOVERNED };

static uint32_t list4(routes_table *t, int kind, uint32_t addr, uint8_t len, size_t limit) {
    switch (kind) {
    case LIST: return routes_list4(t, addr, len);
    case COVER: return routes_cover4(t, addr, len);
    case FROM: return routes_from4(t, addr, len, limit);
    case AFTER: return routes_after4(t, addr, len, limit);
    case ALL: return routes_all4(t, addr, len);
    default: return routes_governed4(t, addr, len);
    }
}

static uint32_t list6(routes_table *t, int kind, uint64_t high, uint64_t low, uint8_t len, size_t limit) {
    switch (kind) {
    case LIST: return routes_list6(t, high, low, len);
    case COVER: return routes_cover6(t, high, low, len);
    case FROM: return routes_from6(t, high, low, len, limit);
    case AFTER: return routes_after6(t, high, low, len, limit);
    case ALL: return routes_all6(t, high, low, len);
    default: return routes_governed6(t, high, low, len);
    }
}

/* Makes the list for the network; host bits are ignored. */
static void made(routes_table *t, int kind, const struct kept *n, size_t limit) {
    number host = width(n->family) - n->len ? drawn() & 1 : 0, addr = n->addr | host;
    CHECK((n->family == 4 ? list4(t, kind, (uint32_t)addr, (uint8_t)n->len, limit)
                          : list6(t, kind, (uint64_t)(addr >> 64), (uint64_t)addr, (uint8_t)n->len, limit)) == ROUTES_OK);
}

static int is_shown(const routes_route *r, const struct kept *k) {
    return r->family == k->family && r->len == k->len && joined(r->high, r->low) == k->addr && r->hop == k->hop && r->pref == k->pref;
}

/* The list has exactly these routes, read one by one and in parts. */
static void has(routes_table *t, const struct kept *wanted, size_t length) {
    routes_route r = {0}, mark, part[8] = {{0}};
    size_t from = 0, got;
    for (size_t i = 0; i < length; i++) CHECK(routes_route_at(t, i, &r) == ROUTES_OK && is_shown(&r, &wanted[i]));
    memset(&mark, 0x5a, sizeof mark);
    r = part[7] = mark;
    CHECK(routes_route_at(t, length, &r) == ROUTES_MISSING && memcmp(&r, &mark, sizeof r) == 0);
    for (; (got = routes_read(t, from, part, 7)) > 0 && from + got <= length; from += got)
        for (size_t i = 0; i < got; i++) CHECK(is_shown(&part[i], &wanted[from + i]));
    CHECK(got == 0 && from == length && memcmp(&part[7], &mark, sizeof mark) == 0);
}

/* Whether the stored network belongs to the list of this kind. */
static int is_listed(int kind, const struct kept *k, const struct kept *n) {
    int later = k->addr != n->addr ? k->addr > n->addr : k->len >= n->len;
    if (k->family != n->family) return 0;
    if (kind == LIST) return k->len >= n->len && masked(k->family, k->addr, n->len) == n->addr;
    if (kind == COVER) return k->len <= n->len && masked(k->family, n->addr, k->len) == k->addr;
    return kind == FROM ? later : later && !is_of(k, n);
}

/* the number of addresses of a block; 0 for all of IPv6 */
static number size_of(int family, int len) { return width(family) - len == 128 ? 0 : (number)1 << (width(family) - len); }

/* The governed addresses of the network. The blocks ascend inside it and overlap no stored network strictly inside it. They have as many
 * addresses as are left, and no two blocks are the halves of one. */
static void governed(routes_table *t, const struct kept *sorted, const struct kept *n) {
    const struct kept *found = match(n->family, n->addr, n->len);
    number left = size_of(n->family, n->len), end = n->addr;
    routes_route r = {0}, last = {0};
    made(t, GOVERNED, n, 0);
    for (const struct kept *k = sorted; k < sorted + count; k++)
        if (is_listed(LIST, k, n) && k->len > n->len && k->addr >= end) {
            left -= size_of(k->family, k->len);
            end = k->addr + size_of(k->family, k->len);
            if (end == 0) break;
        }
    for (size_t i = 0; routes_route_at(t, i, &r) == ROUTES_OK; i++, last = r) {
        struct kept b = {r.family, r.len, r.pref, joined(r.high, r.low), r.hop};
        int looked = i < 200 || drawn() % 256 == 0;
        CHECK(is_listed(LIST, &b, n) && b.hop == hop_of(found) && b.pref == ROUTES_PREFERENCE && masked(b.family, b.addr, b.len) == b.addr);
        CHECK(i == 0 || joined(last.high, last.low) < b.addr);
        CHECK(i == 0 || last.len != b.len || masked(b.family, b.addr, b.len - 1) != joined(last.high, last.low));
        for (const struct kept *k = sorted; looked && k < sorted + count; k++)
            if (k->len > n->len && is_listed(LIST, k, n)) CHECK(!is_listed(LIST, k, &b) && !is_listed(LIST, &b, k));
        left -= size_of(b.family, b.len);
    }
    CHECK(left == 0);
}

/* The blocks of a hop number are those of the flat list. */
static void owned(routes_table *t, uint32_t hop) {
    routes_piece p = {0};
    routes_route r = {0};
    size_t at = 0;
    CHECK(routes_own(t, hop) == ROUTES_OK && routes_flat(t) == ROUTES_OK);
    for (size_t i = 0; routes_piece_at(t, i, &p) == ROUTES_OK; i++)
        if (p.hop == hop) {
            CHECK(routes_route_at(t, at++, &r) == ROUTES_OK && r.hop == hop && r.pref == ROUTES_PREFERENCE);
            CHECK(r.family == p.family && r.len == p.len && r.high == p.high && r.low == p.low);
        }
    CHECK(routes_route_at(t, at, &r) == ROUTES_MISSING);
}

/* The least table has no more routes than there are networks, all with the default preference, and the same hops; some of the hops are
 * checked. */
static void shortest(routes_table *t, size_t networks) {
    static routes_route least[MOST];
    CHECK(routes_least(t) == ROUTES_OK);
    size_t length = routes_read(t, 0, least, MOST);
    CHECK(length <= networks && routes_read(t, length, least, MOST) == 0);
    for (const routes_route *r = least; r < least + length; r++) CHECK(r->pref == ROUTES_PREFERENCE);
    for (int i = 0; i < 200 && count; i++) {
        const struct kept *k = &kept[drawn() % count];
        number addr = k->addr ^ (width(k->family) - k->len ? drawn() & 1 : 0);
        const routes_route *best = NULL;
        for (const routes_route *r = least; r < least + length; r++)
            if (r->family == k->family && masked(k->family, addr, r->len) == joined(r->high, r->low) && (!best || best->len < r->len)) best = r;
        CHECK(hop_of(match(k->family, addr, 128)) == (best ? best->hop : ROUTES_DROP));
    }
}

/* Each list of routes is that of the model. */
static void listed_routes(routes_table *t) {
    static struct kept sorted[MOST], best[MOST], wanted[MOST];
    size_t networks = 0;
    memcpy(sorted, kept, count * sizeof *kept);
    qsort(sorted, count, sizeof *sorted, order);
    for (size_t i = 0; i < count; i++)
        if (i == 0 || !is_of(&sorted[i], &sorted[i - 1])) best[networks++] = sorted[i];
    for (int i = 0; i < 12 && count; i++) {
        struct kept n = kept[drawn() % count];
        size_t limit = drawn() % 20, length = 0;
        n.len = i % 3 == 0 ? n.len : (int)(drawn() % (width(n.family) + 1));
        n.addr = masked(n.family, n.addr, n.len);
        for (int kind = LIST; kind <= AFTER; kind++, length = 0) {
            for (size_t j = 0; j < networks && (kind < FROM || length < limit); j++)
                if (is_listed(kind, &best[j], &n)) wanted[length++] = best[j];
            made(t, kind, &n, limit);
            has(t, wanted, length);
        }
        for (size_t j = 0; j < count; j++)
            if (is_of(&sorted[j], &n)) wanted[length++] = sorted[j];
        made(t, ALL, &n, 0);
        has(t, wanted, length);
        governed(t, sorted, &n);
        owned(t, (uint32_t)(drawn() % 12));
    }
    shortest(t, networks);
}

/* A line and its reply, which is read in parts of every length. */
static void answered(routes_table *t) {
    static const char line[] = "cover ::/0", wanted[] = "route ::/0 7 100\nok\n";
    char out[64];
    routes_change c = {0};
    struct kept k = {6, 0, 100, 0, 7};
    while (routes_del6(t, 0, 0, 0, 7, &c) == ROUTES_OK) {}
    for (uint64_t hop = 0; hop <= 10; hop++) (void)routes_del6(t, 0, 0, 0, hop == 10 ? ROUTES_DROP : hop, &c);
    CHECK(add(t, &k, 0, &c) == ROUTES_OK);
    CHECK(routes_line(t, (const uint8_t *)line, sizeof line - 1) == ROUTES_OK);
    for (size_t room = 0; room <= sizeof wanted; room++) {
        size_t from = 0, got;
        memset(out, '#', sizeof out);
        do {
            got = routes_reply(t, from, (uint8_t *)out + from, room);
            CHECK(out[from + got] == '#');
            from += got;
        } while (got);
        CHECK(from == (room ? sizeof wanted - 1 : 0) && memcmp(out, wanted, from) == 0);
    }
    CHECK(routes_reply(t, 1000, (uint8_t *)out, sizeof out) == 0);
    CHECK(routes_line(t, (const uint8_t *)"nothing", 7) == ROUTES_OK && routes_reply(t, 0, (uint8_t *)out, sizeof out) == 4);
    CHECK(memcmp(out, "bad\n", 4) == 0);
    CHECK(routes_line(t, (const uint8_t *)"", 0) == ROUTES_OK && routes_reply(t, 0, (uint8_t *)out, sizeof out) == 4);
}

static uint32_t follow(routes_follower *f, const char *line) { return routes_follower_line(f, (const uint8_t *)line, strlen(line)); }

static uint32_t told(routes_follower *f, int family, number addr, uint32_t *hop) {
    return family == 4 ? routes_follower_get4(f, (uint32_t)addr, hop) : routes_follower_get6(f, (uint64_t)(addr >> 64), (uint64_t)addr, hop);
}

/* At some addresses, the follower returns the hop of the model; without a hop the number is unchanged. */
static void tells_hops(routes_follower *f) {
    for (int i = 0; i < 500; i++) {
        const struct kept *k = count ? &kept[drawn() % count] : NULL;
        int family = k ? k->family : 4;
        number addr = masked(family, (k ? k->addr : 0) ^ (drawn() & 0xff), width(family));
        uint64_t wanted = hop_of(match(family, addr, 128));
        uint32_t hop = 77, code = told(f, family, addr, &hop);
        CHECK(code == (wanted == ROUTES_DROP ? ROUTES_MISSING : ROUTES_OK) && hop == (wanted == ROUTES_DROP ? 77 : wanted));
    }
}

/* The follower's least table is as long as the table's, and has the hops of the model. The list is read one by one and in parts. */
static void tells_least(routes_table *t, routes_follower *f) {
    static routes_route whole[MOST], part[MOST];
    routes_route r = {0};
    size_t length = 0, from = 0, got;
    CHECK(routes_least(t) == ROUTES_OK && routes_follower_least(f) == ROUTES_OK);
    for (; routes_follower_route_at(f, length, &r) == ROUTES_OK && length < MOST; length++) whole[length] = r;
    CHECK(length == routes_read(t, 0, part, MOST));
    for (memset(part, 0, sizeof part); (got = routes_follower_read(f, from, part + from, 7)) > 0 && from + got <= length; from += got) {}
    CHECK(from == length && got == 0 && memcmp(whole, part, length * sizeof *whole) == 0);
    for (int i = 0; i < 200 && count; i++) {
        const struct kept *k = &kept[drawn() % count];
        const routes_route *best = NULL;
        for (const routes_route *s = whole; s < whole + length; s++)
            if (s->family == k->family && masked(k->family, k->addr, s->len) == joined(s->high, s->low) && (!best || best->len < s->len)) best = s;
        CHECK(hop_of(match(k->family, k->addr, 128)) == (best ? best->hop : ROUTES_DROP) && (!best || best->pref == ROUTES_PREFERENCE));
    }
}

/* After a fault the follower returns no hops and makes no lists; earlier lists can be read. A closed follower has none. */
static void tells_nothing(routes_follower *f, uint32_t code) {
    routes_route r, mark;
    routes_piece p = {0}, q = {0};
    uint32_t hop = 77;
    memset(&mark, 0x5a, sizeof mark);
    r = mark;
    CHECK(routes_follower_get4(f, 1, &hop) == code && routes_follower_get6(f, 1, 1, &hop) == code && hop == 77);
    CHECK(routes_follower_flat(f) == code && routes_follower_least(f) == code);
    if (code == ROUTES_CLOSED)
        CHECK(routes_follower_route_at(f, 0, &r) == code && routes_follower_read(f, 0, &r, 1) == 0 && memcmp(&r, &mark, sizeof r) == 0);
    else
        CHECK(routes_follower_route_at(f, 0, &r) == ROUTES_OK && routes_follower_read(f, 0, &mark, 1) == 1 && memcmp(&r, &mark, sizeof r) == 0);
    CHECK(routes_follower_piece_at(f, 0, &p) == (code == ROUTES_CLOSED ? code : ROUTES_OK));
    CHECK(routes_follower_read_pieces(f, 0, &q, 1) == (code == ROUTES_CLOSED ? 0 : 1) && p.high == q.high && p.low == q.low && p.hop == q.hop);
}

/* A follower whose changes are the lines of the flat list has the hops of the table. A change is pending until `ok`. */
static void followed(routes_table *t) {
    routes_follower f = ROUTES_FOLLOWER;
    routes_index index = ROUTES_INDEX;
    routes_piece p, q;
    routes_route none;
    char line[80], out[80] = {0};
    size_t pieces = 0;
    memset(&none, 0x5a, sizeof none);
    memset(&p, 0x5a, sizeof p);
    q = p;
    CHECK(follow(&f, "ok") == ROUTES_CLOSED && routes_follower_piece_at(&f, 0, &p) == ROUTES_CLOSED);
    CHECK(routes_follower_read_pieces(&f, 0, &p, 1) == 0);
    tells_nothing(&f, ROUTES_CLOSED);
    CHECK(routes_follower_index(&index, &f) == ROUTES_CLOSED && !index.is_open && memcmp(&p, &q, sizeof p) == 0);
    CHECK(routes_follower_open(&f) == ROUTES_OK && routes_follower_open(&f) == ROUTES_OPEN);
    CHECK(routes_flat(t) == ROUTES_OK && routes_line(t, (const uint8_t *)"flat", 4) == ROUTES_OK);
    for (size_t from = 0, got; (got = routes_reply(t, from, (uint8_t *)out, sizeof out)) > 0 && memcmp(out, "ok", 2) != 0; pieces++) {
        size_t len = (size_t)((char *)memchr(out, '\n', got) - out);
        from += len + 1;
        out[len] = 0;
        CHECK(strncmp(out, "flat ", 5) == 0);
        snprintf(line, sizeof line, "set %s", out + 5);
        CHECK(follow(&f, line) == ROUTES_OK);
    }
    CHECK(routes_follower_flat(&f) == ROUTES_OK && routes_follower_piece_at(&f, 0, &p) == ROUTES_MISSING);
    CHECK(routes_follower_least(&f) == ROUTES_OK && routes_follower_read(&f, 0, &none, 1) == 0 && routes_follower_route_at(&f, 0, &none) == ROUTES_MISSING);
    CHECK(follow(&f, "ok") == ROUTES_OK && routes_follower_flat(&f) == ROUTES_OK && routes_follower_index(&index, &f) == ROUTES_OK);
    for (size_t i = 0; i < pieces; i++) {
        CHECK(routes_piece_at(t, i, &p) == ROUTES_OK && routes_follower_piece_at(&f, i, &q) == ROUTES_OK);
        CHECK(p.family == q.family && p.len == q.len && p.high == q.high && p.low == q.low && p.hop == q.hop);
    }
    CHECK(routes_follower_piece_at(&f, pieces, &q) == ROUTES_MISSING && routes_follower_read_pieces(&f, pieces, &q, 1) == 0);
    if (pieces > 0) CHECK(routes_follower_read_pieces(&f, pieces - 1, &q, 1) == 1 && q.low == p.low && q.len == p.len && q.hop == p.hop);
    has_hops(&index);
    tells_hops(&f);
    tells_least(t, &f);
    CHECK(routes_follower_index(&index, &f) == ROUTES_OPEN);
    routes_index_close(&index);
    CHECK(follow(&f, "no line") == ROUTES_NOT_A_LINE && follow(&f, "ok") == ROUTES_FAILED);
    tells_nothing(&f, ROUTES_FAILED);
    CHECK(routes_follower_index(&index, &f) == ROUTES_FAILED && !index.is_open);
    routes_follower_close(&f);
    CHECK(f.at == NULL && !f.is_open);
    routes_follower_close(&f);
}

/* A handle that is not an open table makes each call fail in this way, and is unchanged. */
static void answers_closed(routes_table *t) {
    routes_route r, no_route;
    routes_change c = {77, 78};
    routes_piece p, no_piece;
    uint8_t out[4] = {'#', '#', '#', '#'};
    uint32_t addr4 = 1;
    routes_addr6 addr6 = {1, 1};
    uint64_t hop = 77;
    size_t ipv4 = 77, ipv6 = 78;
    memset(&no_route, 0x5a, sizeof r);
    memset(&no_piece, 0x5a, sizeof p);
    r = no_route, p = no_piece;
    CHECK(routes_get4(t, 1, &r) == ROUTES_CLOSED && routes_get6(t, 1, 1, &r) == ROUTES_CLOSED);
    CHECK(routes_get4_many(t, &addr4, 1, &hop, 1) == ROUTES_CLOSED && routes_get6_many(t, &addr6, 1, &hop, 1) == ROUTES_CLOSED && hop == 77);
    CHECK(routes_count(t, &ipv4, &ipv6) == ROUTES_CLOSED && ipv4 == 77 && ipv6 == 78);
    CHECK(routes_add4(t, 1, 8, 1, 1, &c) == ROUTES_CLOSED && routes_add6(t, 1, 1, 8, 1, 1, &c) == ROUTES_CLOSED);
    CHECK(routes_del4(t, 1, 8, 1, &c) == ROUTES_CLOSED && routes_del6(t, 1, 1, 8, 1, &c) == ROUTES_CLOSED);
    CHECK(routes_flat(t) == ROUTES_CLOSED && routes_piece_at(t, 0, &p) == ROUTES_CLOSED && routes_read_pieces(t, 0, &p, 1) == 0);
    for (int kind = LIST; kind <= GOVERNED; kind++)
        CHECK(list4(t, kind, 1, 8, 1) == ROUTES_CLOSED && list6(t, kind, 1, 1, 8, 1) == ROUTES_CLOSED);
    CHECK(routes_own(t, 1) == ROUTES_CLOSED && routes_least(t) == ROUTES_CLOSED);
    CHECK(routes_route_at(t, 0, &r) == ROUTES_CLOSED && routes_read(t, 0, &r, 1) == 0);
    CHECK(routes_line(t, (const uint8_t *)"count", 5) == ROUTES_CLOSED && routes_reply(t, 0, out, 4) == 0);
    CHECK(memcmp(&r, &no_route, sizeof r) == 0 && memcmp(&p, &no_piece, sizeof p) == 0);
    CHECK(c.before == 77 && c.after == 78 && out[0] == '#');
}

/* A closed table. */
static void closed(routes_table *t) {
    answers_closed(t);
    CHECK(t->at == NULL && !t->is_open);
    routes_close(t);
    CHECK(t->at == NULL && !t->is_open);
}

/* A follower and an index passed as tables, and a table passed as either; all are unchanged. Any of the close calls frees a handle. */
static void of_another_kind(routes_table *t) {
    routes_follower f = ROUTES_FOLLOWER, *as_follower = (routes_follower *)t;
    routes_index index = ROUTES_INDEX, shut = ROUTES_INDEX, *as_index = (routes_index *)t;
    uint32_t number = 77;
    uint64_t hop = 77;
    CHECK(routes_follower_open(&f) == ROUTES_OK && follow(&f, "set 10.0.0.0/8 1") == ROUTES_OK && follow(&f, "ok") == ROUTES_OK);
    CHECK(routes_index_open(&index, t) == ROUTES_OK);
    answers_closed((routes_table *)&f);
    answers_closed((routes_table *)&index);
    CHECK(follow(as_follower, "ok") == ROUTES_CLOSED && routes_follower_get4(as_follower, 1, &number) == ROUTES_CLOSED && number == 77);
    CHECK(routes_follower_flat(as_follower) == ROUTES_CLOSED && routes_follower_least(as_follower) == ROUTES_CLOSED);
    CHECK(routes_follower_index(&shut, as_follower) == ROUTES_CLOSED && routes_index_share(&shut, as_index) == ROUTES_CLOSED && !shut.is_open);
    CHECK(routes_index_hop4(as_index, 1, &hop) == ROUTES_CLOSED && routes_index_hop6(as_index, 1, 1, &hop) == ROUTES_CLOSED && hop == 77);
    CHECK(routes_open((routes_table *)&f) == ROUTES_OPEN && routes_follower_open(as_follower) == ROUTES_OPEN);
    CHECK(routes_index_open((routes_index *)&f, t) == ROUTES_OPEN && routes_index_share((routes_index *)&f, &index) == ROUTES_OPEN);
    CHECK(routes_follower_index(as_index, &f) == ROUTES_OPEN);
    CHECK(routes_follower_get4(&f, 0x0a000001, &number) == ROUTES_OK && number == 1);
    has_hops(&index);
    routes_index_close((routes_index *)&f);
    routes_close((routes_table *)&index);
    CHECK(f.at == NULL && !f.is_open && index.at == NULL && !index.is_open);
}

/* If several results apply, a length comes first, and an open handle before all that the other handle lacks. */
static void in_order(routes_table *t) {
    routes_table shut = ROUTES_TABLE;
    routes_index index = ROUTES_INDEX, closed = ROUTES_INDEX;
    routes_follower f = ROUTES_FOLLOWER;
    routes_change c = {77, 78};
    CHECK(routes_add4(&shut, 0, 33, 1, 1, &c) == ROUTES_TOO_LONG && routes_add6(&shut, 0, 0, 129, 1, 1, &c) == ROUTES_TOO_LONG);
    CHECK(routes_del4(&shut, 0, 33, 1, &c) == ROUTES_TOO_LONG && routes_del6(&shut, 0, 0, 129, 1, &c) == ROUTES_TOO_LONG);
    for (int kind = LIST; kind <= GOVERNED; kind++)
        CHECK(list4(&shut, kind, 1, 33, 1) == ROUTES_TOO_LONG && list6(&shut, kind, 1, 1, 129, 1) == ROUTES_TOO_LONG);
    CHECK(c.before == 77 && c.after == 78 && routes_index_open(&index, t) == ROUTES_OK);
    CHECK(routes_index_open(&index, &shut) == ROUTES_OPEN && routes_index_share(&index, &closed) == ROUTES_OPEN);
    CHECK(routes_follower_index(&index, &f) == ROUTES_OPEN);
    CHECK(routes_follower_open(&f) == ROUTES_OK && follow(&f, "no line") == ROUTES_NOT_A_LINE && routes_follower_index(&index, &f) == ROUTES_OPEN);
    has_hops(&index);
    routes_index_close(&index);
    routes_follower_close(&f);
}

/* The greatest hops, limits and indexes, and the halves of an address. */
static void at_the_ends(void) {
    static const uint8_t bytes[16] = {0x20, 0x01, 0x0d, 0xb8, 0, 0, 0, 1, 0xff, 0, 0, 0, 0, 0, 0, 2};
    routes_table t = ROUTES_TABLE;
    routes_route r = {0};
    routes_change c = {77, 78};
    routes_piece p = {0};
    uint8_t out = '#';
    CHECK(routes_half(bytes) == UINT64_C(0x20010db800000001) && routes_half(bytes + 8) == UINT64_C(0xff00000000000002));
    CHECK(routes_open(&t) == ROUTES_OK && routes_add4(&t, 0, 0, UINT64_MAX, 1, &c) == ROUTES_OK && routes_add6(&t, 0, 0, 0, ROUTES_DROP + 1, 1, &c) == ROUTES_OK);
    CHECK(c.before == ROUTES_DROP && c.after == ROUTES_DROP && routes_get4(&t, 1, &r) == ROUTES_OK && r.hop == ROUTES_DROP);
    CHECK(routes_from4(&t, 0, 0, SIZE_MAX) == ROUTES_OK && routes_read(&t, 0, &r, 1) == 1 && routes_read(&t, SIZE_MAX, &r, 1) == 0);
    CHECK(routes_from6(&t, 0, 0, 0, SIZE_MAX) == ROUTES_OK && routes_route_at(&t, 0, &r) == ROUTES_OK && routes_route_at(&t, SIZE_MAX, &r) == ROUTES_MISSING);
    CHECK(routes_after4(&t, 0, 0, SIZE_MAX) == ROUTES_OK && routes_route_at(&t, 0, &r) == ROUTES_MISSING);
    CHECK(routes_after6(&t, 0, 0, 0, SIZE_MAX) == ROUTES_OK && routes_route_at(&t, 0, &r) == ROUTES_MISSING);
    CHECK(routes_piece_at(&t, SIZE_MAX, &p) == ROUTES_MISSING && routes_reply(&t, SIZE_MAX, &out, 1) == 0 && out == '#');
    CHECK(routes_del4(&t, 0, 0, ROUTES_DROP + 2, &c) == ROUTES_OK && routes_del6(&t, 0, 0, 0, UINT64_MAX, &c) == ROUTES_OK);
    CHECK(routes_get4(&t, 1, &r) == ROUTES_MISSING);
    routes_follower_close((routes_follower *)&t);
    CHECK(t.at == NULL && !t.is_open);
}

int main(void) {
    routes_table t = ROUTES_TABLE, other = ROUTES_TABLE;
    routes_change c = {77, 78};
    closed(&t);
    CHECK(routes_open(&t) == ROUTES_OK && routes_open(&t) == ROUTES_OPEN && routes_open(&other) == ROUTES_OK);
    CHECK(routes_add4(&t, 0, 33, 1, 1, &c) == ROUTES_TOO_LONG && routes_add6(&t, 0, 0, 129, 1, 1, &c) == ROUTES_TOO_LONG);
    CHECK(routes_del4(&t, 0, 255, 1, &c) == ROUTES_TOO_LONG && routes_del6(&t, 0, 0, 255, 1, &c) == ROUTES_TOO_LONG);
    CHECK(c.before == 77 && c.after == 78);
    for (int kind = LIST; kind <= GOVERNED; kind++)
        CHECK(list4(&t, kind, 1, 33, 1) == ROUTES_TOO_LONG && list6(&t, kind, 1, 1, 129, 1) == ROUTES_TOO_LONG);
    routes_route none = {0};
    CHECK(routes_route_at(&t, 0, &none) == ROUTES_MISSING && routes_read(&t, 0, &none, 1) == 0);
    for (int turn = 0; turn < TURNS && count < MOST; turn++) {
        changed(&t);
        if (turn % 2000 == 0) listed(&t);
        if (turn % 500 == 0) counted(&t);
        if (turn % 1000 == 0) listed_routes(&t);
        if (turn % 1000 == 0) copied(&t);
        if (turn % 100 == 0) looked_up_at_once(&t);
    }
    listed(&t);
    followed(&t);
    of_another_kind(&t);
    in_order(&t);
    at_the_ends();
    answered(&t);
    routes_route r = {0};
    CHECK(routes_get4(&other, 1, &r) == ROUTES_MISSING);
    routes_close(&other);
    routes_close(&t);
    closed(&t);
    CHECK(routes_open(&t) == ROUTES_OK && routes_get4(&t, 0, &r) == ROUTES_MISSING);
    routes_close(&t);
    printf("%ld checks, %ld failed\n", checks, failed);
    return failed != 0;
}
