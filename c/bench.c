/* Times calls of the library, unless compiled with -DNO_LIBRARY, and of DPDK, if compiled with -DDPDK, on networks and addresses from
 * files. bench/calls.py builds this program; bench/c_calls.py and bench/maps.py run it.
 *
 * usage: bench routes|rib|fib v4|v6 NETWORKS ADDRESSES ..
 *
 * NETWORKS has lines `NET HOP`, each network once. ADDRESSES has lines `ADDRESS/LEN`. Each call is
 * made for each line of its file; the dels are in another order than the adds. A line `CALL FILE NANOSECONDS RESULT` gives the CPU time of
 * one call. FILE counts the files of addresses from 1, and is 0 for changes. RESULT is a checksum of all hops that the lookups returned,
 * or the number of networks stored after the changes. Lines `table_bytes 0 BYTES 0` and `index_bytes 0 BYTES 0` give the memory that the
 * library allocated for a network, by glibc's account. Lines `reader FILE NANOSECONDS 0` and `readers FILE NANOSECONDS 0` give the time
 * by the clock of one lookup, 64 in a call, if one thread looks up the addresses in an index, and if READERS do so at once. At the end a line `matched FILE 0 SUM` gives the sum, over the addresses that a
 * network contains, of the longest such network's line number, from 0, and its length. */
#ifndef _GNU_SOURCE
#define _GNU_SOURCE
#endif
#include "routes.h"
#include <arpa/inet.h>
#include <malloc.h>
#include <pthread.h>
#include <stdio.h>
#include <stdlib.h>
#include <string.h>
#include <time.h>
#ifdef DPDK
#include <rte_eal.h>
#include <rte_fib.h>
#include <rte_fib6.h>
#include <rte_memory.h>
#include <rte_rib.h>
#include <rte_rib6.h>
#include <sched.h>
#endif

#define MANY 64
#define READERS 8

struct line {
    uint64_t high, low, hop;
    uint8_t bytes[16], len;
};
struct lines {
    size_t count, room;
    struct line *at;
};
/* The addresses of a file in the form of each library, and the hops that it returns. */
struct asked {
    size_t count;
    uint32_t *v4;
    routes_addr6 *v6;
    uint8_t (*bytes)[16];
    uint64_t *hops;
};
typedef void change(const struct line *line);
typedef void look_up(struct asked *asked);

static int is_v6;

static void fail(const char *what) {
    fprintf(stderr, "bench: %s\n", what);
    exit(1);
}

static void *taken(size_t count, size_t size) {
    void *at = malloc(count * size + 1);
    if (!at) fail("no memory");
    return memset(at, 0, count * size + 1);
}

static void held(int is_right, const char *what) {
    if (!is_right) fail(what);
}

static double now(void) {
    struct timespec t;
    clock_gettime(CLOCK_PROCESS_CPUTIME_ID, &t);
    return (double)t.tv_sec * 1e9 + (double)t.tv_nsec;
}

static struct line parsed(char *text) {
    struct line line = {0};
    char *slash = strchr(text, '/'), *end;
    held(slash != NULL, "a line without a length");
    *slash = 0;
    line.len = (uint8_t)strtoul(slash + 1, &end, 10);
    line.hop = strtoull(end, NULL, 10);
    held(inet_pton(is_v6 ? AF_INET6 : AF_INET, text, line.bytes) == 1, "a line without an address of the family");
    line.high = is_v6 ? routes_half(line.bytes) : 0;
    line.low = is_v6 ? routes_half(line.bytes + 8) : routes_half(line.bytes) >> 32;
    return line;
}

static struct lines lines_of(const char *path) {
    struct lines lines = {0, 0, NULL};
    char text[128];
    FILE *file = fopen(path, "r");
    held(file != NULL, path);
    while (fgets(text, sizeof text, file)) {
        if (lines.count == lines.room) {
            lines.room = lines.room ? 2 * lines.room : 1024;
            lines.at = realloc(lines.at, lines.room * sizeof *lines.at);
            held(lines.at != NULL, "no memory");
        }
        lines.at[lines.count++] = parsed(text);
    }
    fclose(file);
    held(lines.count > 0, path);
    return lines;
}

static struct asked asked_of(const char *path) {
    struct lines lines = lines_of(path);
    struct asked asked = {lines.count, taken(lines.count, 4), taken(lines.count, 16), taken(lines.count, 16), taken(lines.count, 8)};
    for (size_t i = 0; i < lines.count; i++) {
        asked.v4[i] = (uint32_t)lines.at[i].low;
        asked.v6[i] = (routes_addr6){lines.at[i].high, lines.at[i].low};
        memcpy(asked.bytes[i], lines.at[i].bytes, 16);
    }
    free(lines.at);
    return asked;
}

static size_t divisor(size_t a, size_t b) { return b ? divisor(b, a % b) : a; }

/* The same lines in another order than that of the file. */
static struct lines shuffled(const struct lines *lines) {
    struct lines other = {lines->count, lines->count, taken(lines->count, sizeof *lines->at)};
    size_t step = 7368787 % lines->count;
    while (divisor(step, lines->count) != 1) step++;
    for (size_t i = 0, from = 0; i < lines->count; i++, from = (from + step) % lines->count) other.at[i] = lines->at[from];
    return other;
}

static void told(const char *call, int file, double spent, size_t count, uint64_t result) {
    printf("%s %d %.2f %llu\n", call, file, spent / (double)count, (unsigned long long)result);
}

static void changed(const char *call, change *made, const struct lines *lines, size_t (*stored)(void)) {
    double start = now();
    for (const struct line *line = lines->at; line < lines->at + lines->count; line++) made(line);
    double spent = now() - start;
    told(call, 0, spent, lines->count, stored());
}

/* A fib's answer for an address that no network contains; a hop of a fib has fewer bits. */
#define NO_HOP 0x7fffffff

/* A checksum of all hops in their order. Each side has its own number for no network, which counts as no hop here. */
static uint64_t digest(const struct asked *asked) {
    uint64_t all = 14695981039346656037u;
    for (size_t i = 0; i < asked->count; i++) {
        uint64_t hop = asked->hops[i];
        all = (all ^ (hop == ROUTES_NO_MATCH || hop == NO_HOP ? ROUTES_DROP : hop)) * 1099511628211u;
    }
    return all;
}

static void looked_up(const char *call, int file, look_up *all, struct asked *asked) {
    memset(asked->hops, 0x5a, asked->count * sizeof *asked->hops);
    double start = now();
    all(asked);
    double spent = now() - start;
    told(call, file, spent, asked->count, digest(asked));
}

/* The number of addresses that the next call for many takes. */
static size_t part(const struct asked *asked, size_t from) { return asked->count - from < MANY ? asked->count - from : MANY; }

#ifndef NO_LIBRARY
/* The library. */

static routes_table table;
static routes_index indexed;

static void add4(const struct line *line) {
    routes_change c = {0};
    held(routes_add4(&table, (uint32_t)line->low, line->len, line->hop, ROUTES_PREFERENCE, &c) == ROUTES_OK, "add");
}

static void add6(const struct line *line) {
    routes_change c = {0};
    held(routes_add6(&table, line->high, line->low, line->len, line->hop, ROUTES_PREFERENCE, &c) == ROUTES_OK, "add");
}

static void del4(const struct line *line) {
    routes_change c = {0};
    held(routes_del4(&table, (uint32_t)line->low, line->len, line->hop, &c) == ROUTES_OK, "del");
}

static void del6(const struct line *line) {
    routes_change c = {0};
    held(routes_del6(&table, line->high, line->low, line->len, line->hop, &c) == ROUTES_OK, "del");
}

static size_t stored(void) {
    size_t ipv4 = 0, ipv6 = 0;
    held(routes_count(&table, &ipv4, &ipv6) == ROUTES_OK, "count");
    return ipv4 + ipv6;
}

static void get4(struct asked *a) {
    routes_route r = {0};
    for (size_t i = 0; i < a->count; i++) a->hops[i] = routes_get4(&table, a->v4[i], &r) == ROUTES_OK ? r.hop : ROUTES_DROP;
}

static void get6(struct asked *a) {
    routes_route r = {0};
    for (size_t i = 0; i < a->count; i++)
        a->hops[i] = routes_get6(&table, a->v6[i].high, a->v6[i].low, &r) == ROUTES_OK ? r.hop : ROUTES_DROP;
}

static void get4_many(struct asked *a) {
    for (size_t i = 0; i < a->count; i += MANY) routes_get4_many(&table, a->v4 + i, part(a, i), a->hops + i, part(a, i));
}

static void get6_many(struct asked *a) {
    for (size_t i = 0; i < a->count; i += MANY) routes_get6_many(&table, a->v6 + i, part(a, i), a->hops + i, part(a, i));
}

static void hop4(struct asked *a) {
    for (size_t i = 0; i < a->count; i++) routes_index_hop4(&indexed, a->v4[i], a->hops + i);
}

static void hop6(struct asked *a) {
    for (size_t i = 0; i < a->count; i++) routes_index_hop6(&indexed, a->v6[i].high, a->v6[i].low, a->hops + i);
}

static void hop4_many(struct asked *a) {
    for (size_t i = 0; i < a->count; i += MANY) routes_index_hop4_many(&indexed, a->v4 + i, part(a, i), a->hops + i, part(a, i));
}

static void hop6_many(struct asked *a) {
    for (size_t i = 0; i < a->count; i += MANY) routes_index_hop6_many(&indexed, a->v6 + i, part(a, i), a->hops + i, part(a, i));
}

/* The bytes that are allocated. */
static double allocated(void) {
    struct mallinfo2 info = mallinfo2();
    return (double)info.uordblks + (double)info.hblkhd;
}

/* A table whose hops are line numbers shows which network is matched. */
static void matched(const struct lines *lines, const struct asked *asked, int file) {
    uint64_t sum = 0;
    routes_route r = {0};
    for (size_t i = 0; i < lines->count; i++) {
        struct line line = lines->at[i];
        line.hop = i;
        (is_v6 ? add6 : add4)(&line);
    }
    for (size_t i = 0; i < asked->count; i++)
        if ((is_v6 ? routes_get6(&table, asked->v6[i].high, asked->v6[i].low, &r) : routes_get4(&table, asked->v4[i], &r)) == ROUTES_OK)
            sum += r.hop + r.len;
    told("matched", file, 0, 1, sum);
    routes_close(&table);
    held(routes_open(&table) == ROUTES_OK, "open");
}

/* A thread that looks up the addresses, by a handle of its own. */
struct reader {
    pthread_t thread;
    routes_index index;
    const struct asked *asked;
};

static void *reads(void *given) {
    struct reader *reader = given;
    const struct asked *a = reader->asked;
    uint64_t hops[MANY] = {0};
    for (size_t i = 0; i < a->count; i += MANY) {
        if (is_v6) routes_index_hop6_many(&reader->index, a->v6 + i, part(a, i), hops, MANY);
        else routes_index_hop4_many(&reader->index, a->v4 + i, part(a, i), hops, MANY);
    }
    return NULL;
}

/* The nanoseconds by the clock until so many readers have looked up all addresses. */
static double read_by(int readers, const struct asked *asked) {
    struct reader all[READERS];
    struct timespec from, to;
    for (int i = 0; i < readers; i++) {
        all[i] = (struct reader){.index = ROUTES_INDEX, .asked = asked};
        held(routes_index_share(&all[i].index, &indexed) == ROUTES_OK, "share");
    }
    clock_gettime(CLOCK_MONOTONIC, &from);
    for (int i = 0; i < readers; i++) held(pthread_create(&all[i].thread, NULL, reads, all + i) == 0, "thread");
    for (int i = 0; i < readers; i++) pthread_join(all[i].thread, NULL);
    clock_gettime(CLOCK_MONOTONIC, &to);
    for (int i = 0; i < readers; i++) routes_index_close(&all[i].index);
    return (double)(to.tv_sec - from.tv_sec) * 1e9 + (double)(to.tv_nsec - from.tv_nsec);
}

static void routes(const struct lines *lines, struct asked *asked, int files) {
    struct lines other = shuffled(lines);
    double before = allocated();
    held(routes_open(&table) == ROUTES_OK, "open");
    changed("add", is_v6 ? add6 : add4, lines, stored);
    told("table_bytes", 0, allocated() - before, lines->count, 0);
    for (int i = 0; i < files; i++) {
        looked_up("match", i + 1, is_v6 ? get6 : get4, asked + i);
        looked_up("match_many", i + 1, is_v6 ? get6_many : get4_many, asked + i);
    }
    before = allocated();
    double start = now();
    held(routes_index_open(&indexed, &table) == ROUTES_OK, "index");
    told("index_open", 0, now() - start, lines->count, stored());
    told("index_bytes", 0, allocated() - before, lines->count, 0);
    for (int i = 0; i < files; i++) {
        looked_up("index", i + 1, is_v6 ? hop6 : hop4, asked + i);
        looked_up("index_many", i + 1, is_v6 ? hop6_many : hop4_many, asked + i);
        told("reader", i + 1, read_by(1, asked + i), asked[i].count, 0);
        told("readers", i + 1, read_by(READERS, asked + i), asked[i].count, 0);
    }
    routes_index_close(&indexed);
    changed("del", is_v6 ? del6 : del4, &other, stored);
    for (int i = 0; i < files; i++) matched(lines, asked + i, i + 1);
    routes_close(&table);
}
#endif

#ifdef DPDK
/* DPDK's tables, in memory without huge pages. */

static struct rte_rib *rib;
static struct rte_rib6 *rib6;
static struct rte_fib *fib;
static struct rte_fib6 *fib6;
static size_t kept;

static size_t kept_now(void) { return kept; }

static void rib_add(const struct line *line) {
    struct rte_rib_node *node = rte_rib_insert(rib, (uint32_t)line->low, line->len);
    held(node && rte_rib_set_nh(node, line->hop) == 0, "rte_rib_insert");
    kept++;
}

static void rib6_add(const struct line *line) {
    struct rte_rib6_node *node = rte_rib6_insert(rib6, line->bytes, line->len);
    held(node && rte_rib6_set_nh(node, line->hop) == 0, "rte_rib6_insert");
    kept++;
}

static void rib_del(const struct line *line) {
    rte_rib_remove(rib, (uint32_t)line->low, line->len);
    kept--;
}

static void rib6_del(const struct line *line) {
    rte_rib6_remove(rib6, line->bytes, line->len);
    kept--;
}

static void rib_get(struct asked *a) {
    for (size_t i = 0; i < a->count; i++) {
        struct rte_rib_node *node = rte_rib_lookup(rib, a->v4[i]);
        if (!node || rte_rib_get_nh(node, a->hops + i)) a->hops[i] = ROUTES_DROP;
    }
}

static void rib6_get(struct asked *a) {
    for (size_t i = 0; i < a->count; i++) {
        struct rte_rib6_node *node = rte_rib6_lookup(rib6, a->bytes[i]);
        if (!node || rte_rib6_get_nh(node, a->hops + i)) a->hops[i] = ROUTES_DROP;
    }
}

static void fib_add(const struct line *line) {
    held(rte_fib_add(fib, (uint32_t)line->low, line->len, line->hop) == 0, "rte_fib_add");
    kept++;
}

static void fib6_add(const struct line *line) {
    held(rte_fib6_add(fib6, line->bytes, line->len, line->hop) == 0, "rte_fib6_add");
    kept++;
}

static void fib_del(const struct line *line) {
    held(rte_fib_delete(fib, (uint32_t)line->low, line->len) == 0, "rte_fib_delete");
    kept--;
}

static void fib6_del(const struct line *line) {
    held(rte_fib6_delete(fib6, line->bytes, line->len) == 0, "rte_fib6_delete");
    kept--;
}

static void fib_get(struct asked *a) {
    for (size_t i = 0; i < a->count; i++) rte_fib_lookup_bulk(fib, a->v4 + i, a->hops + i, 1);
}

static void fib6_get(struct asked *a) {
    for (size_t i = 0; i < a->count; i++) rte_fib6_lookup_bulk(fib6, a->bytes + i, a->hops + i, 1);
}

static void fib_get_many(struct asked *a) {
    for (size_t i = 0; i < a->count; i += MANY) rte_fib_lookup_bulk(fib, a->v4 + i, a->hops + i, (int)part(a, i));
}

static void fib6_get_many(struct asked *a) {
    for (size_t i = 0; i < a->count; i += MANY) rte_fib6_lookup_bulk(fib6, a->bytes + i, a->hops + i, (unsigned)part(a, i));
}

static void prepared(void) {
    char core[16];
    snprintf(core, sizeof core, "%d", sched_getcpu());
    char *words[] = {"bench", "--no-huge", "-m", "4096", "--no-pci", "--no-telemetry", "--no-shconf", "--log-level=4", "-l", core};
    held(rte_eal_init(sizeof words / sizeof *words, words) >= 0, "rte_eal_init");
}

static void by_rib(const struct lines *lines, struct asked *asked, int files) {
    struct lines other = shuffled(lines);
    struct rte_rib_conf conf = {.ext_sz = 0, .max_nodes = 2 * (int)lines->count};
    struct rte_rib6_conf conf6 = {.ext_sz = 0, .max_nodes = 2 * (int)lines->count};
    prepared();
    held(is_v6 ? (rib6 = rte_rib6_create("rib6", SOCKET_ID_ANY, &conf6)) != NULL : (rib = rte_rib_create("rib", SOCKET_ID_ANY, &conf)) != NULL,
         "rte_rib_create");
    changed("add", is_v6 ? rib6_add : rib_add, lines, kept_now);
    for (int i = 0; i < files; i++) looked_up("match", i + 1, is_v6 ? rib6_get : rib_get, asked + i);
    changed("del", is_v6 ? rib6_del : rib_del, &other, kept_now);
}

/* How many groups of 256 addresses DIR24_8 may need: at most one for each network below a /24. */
static uint32_t groups(const struct lines *lines) {
    uint32_t count = 1 << 16;
    for (size_t i = 0; i < lines->count; i++) count += lines->at[i].len > 24;
    return count;
}

static void by_fib(const struct lines *lines, struct asked *asked, int files) {
    struct lines other = shuffled(lines);
    struct rte_fib_conf conf = {.type = RTE_FIB_DIR24_8, .default_nh = NO_HOP, .max_routes = 2 * (int)lines->count,
                                .dir24_8 = {.nh_sz = RTE_FIB_DIR24_8_4B, .num_tbl8 = groups(lines)}};
    struct rte_fib6_conf conf6 = {.type = RTE_FIB6_TRIE, .default_nh = NO_HOP, .max_routes = 2 * (int)lines->count,
                                  .trie = {.nh_sz = RTE_FIB6_TRIE_4B, .num_tbl8 = (1 << 19) + 2 * lines->count}};
    prepared();
    held(is_v6 ? (fib6 = rte_fib6_create("fib6", SOCKET_ID_ANY, &conf6)) != NULL : (fib = rte_fib_create("fib", SOCKET_ID_ANY, &conf)) != NULL,
         "rte_fib_create");
    changed("add", is_v6 ? fib6_add : fib_add, lines, kept_now);
    for (int i = 0; i < files; i++) {
        looked_up("index", i + 1, is_v6 ? fib6_get : fib_get, asked + i);
        looked_up("index_many", i + 1, is_v6 ? fib6_get_many : fib_get_many, asked + i);
    }
    changed("del", is_v6 ? fib6_del : fib_del, &other, kept_now);
}
#endif

int main(int argc, char **argv) {
    struct asked asked[8];
    int files = argc - 4;
    if (files < 1 || files > 8) fail("usage: bench routes|rib|fib v4|v6 NETWORKS ADDRESSES ..");
    is_v6 = strcmp(argv[2], "v6") == 0;
    struct lines lines = lines_of(argv[3]);
    for (int i = 0; i < files; i++) asked[i] = asked_of(argv[4 + i]);
#ifndef NO_LIBRARY
    if (strcmp(argv[1], "routes") == 0) return routes(&lines, asked, files), 0;
#endif
#ifdef DPDK
    if (strcmp(argv[1], "rib") == 0) return by_rib(&lines, asked, files), 0;
    if (strcmp(argv[1], "fib") == 0) return by_fib(&lines, asked, files), 0;
#endif
    fail("there is no such side");
}
