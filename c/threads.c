/* Handles that move from thread to thread between calls. A table, a follower and an index of them are opened, changed, queried and closed,
 * each time by another thread, while other threads use other handles. Then eight threads look up addresses in one index at the same
 * time, each by a handle of its own, while another thread replaces it. */
#include "routes.h"
#include <pthread.h>
#include <stdio.h>
#include <stdlib.h>
#include <string.h>

#ifndef STEPS
#define STEPS 400
#endif
#define THREADS 4
#define SETS 12
#define READERS 8
#define VERSIONS (STEPS / 4)
#define ADDRS 64

/* A set of handles, which moves from thread to thread. */
struct set {
    routes_table table;
    routes_follower follower;
    routes_index index;
    uint32_t number, step;
    struct set *next;
};

static struct set sets[SETS], *waiting[THREADS];
static int left = SETS;
static long steps;
static pthread_mutex_t lock = PTHREAD_MUTEX_INITIALIZER;
static pthread_cond_t more = PTHREAD_COND_INITIALIZER;

#define WANT(x) do { if (!(x)) { printf("line %d: %s\n", __LINE__, #x); exit(1); } } while (0)

static uint32_t addr_of(const struct set *s, uint32_t step) { return 0x0a000000 | s->number << 16 | step; }

static uint32_t follow(routes_follower *f, const char *line) { return routes_follower_line(f, (const uint8_t *)line, strlen(line)); }

/* The step's address gets its hop, and the step before still has its own. */
static void changed(struct set *s) {
    routes_change c = {0};
    routes_route r = {0};
    uint32_t addr = addr_of(s, s->step);
    WANT(routes_add4(&s->table, addr, 32, s->step, ROUTES_PREFERENCE, &c) == ROUTES_OK && c.before == ROUTES_DROP && c.after == s->step);
    WANT(routes_get4(&s->table, addr, &r) == ROUTES_OK && r.hop == s->step);
    if (s->step > 0) WANT(routes_get4(&s->table, addr - 1, &r) == ROUTES_OK && r.hop == s->step - 1);
}

/* The same for the follower: the change of one step is pending until the next step. */
static void told(struct set *s) {
    char line[64];
    uint32_t hop = 77, addr = addr_of(s, s->step);
    WANT(follow(&s->follower, "ok") == ROUTES_OK);
    snprintf(line, sizeof line, "set 10.%u.%u.%u/32 %u", (unsigned)s->number, (unsigned)(s->step >> 8), (unsigned)(s->step & 255), (unsigned)s->step);
    WANT(follow(&s->follower, line) == ROUTES_OK);
    WANT(routes_follower_get4(&s->follower, addr, &hop) == ROUTES_MISSING && hop == 77);
    if (s->step > 0) WANT(routes_follower_get4(&s->follower, addr - 1, &hop) == ROUTES_OK && hop == s->step - 1);
}

/* An index of the table or the follower is opened at one step, and queried and closed at the next. */
static void indexed(struct set *s) {
    uint64_t hop = 77;
    if (!s->index.is_open) {
        WANT((s->step % 20 == 0 ? routes_index_open(&s->index, &s->table) : routes_follower_index(&s->index, &s->follower)) == ROUTES_OK);
        return;
    }
    uint32_t last = s->step % 20 == 1 ? s->step - 1 : s->step - 2;
    WANT(routes_index_hop4(&s->index, addr_of(s, last), &hop) == ROUTES_OK && hop == last);
    routes_index_close(&s->index);
}

/* Lists are made at one step, and read at the next. */
static void listed(struct set *s) {
    routes_piece p = {0};
    routes_route r = {0};
    if (s->step % 20 == 4) {
        WANT(routes_flat(&s->table) == ROUTES_OK && routes_least(&s->table) == ROUTES_OK);
        WANT(routes_follower_flat(&s->follower) == ROUTES_OK && routes_follower_least(&s->follower) == ROUTES_OK);
        return;
    }
    WANT(routes_piece_at(&s->table, s->step - 1, &p) == ROUTES_OK && p.low == addr_of(s, s->step - 1) && p.hop == s->step - 1);
    WANT(routes_follower_piece_at(&s->follower, s->step - 2, &p) == ROUTES_OK && p.hop == s->step - 2);
    WANT(routes_route_at(&s->table, 0, &r) == ROUTES_OK && routes_read(&s->table, 0, &r, 1) == 1);
    WANT(routes_follower_route_at(&s->follower, 0, &r) == ROUTES_OK && routes_follower_read(&s->follower, 0, &r, 1) == 1);
}

/* Makes one step of a set; returns whether there are more. */
static int stepped(struct set *s) {
    size_t ipv4 = 0, ipv6 = 7;
    if (s->step == 0) WANT(routes_open(&s->table) == ROUTES_OK && routes_follower_open(&s->follower) == ROUTES_OK);
    changed(s);
    told(s);
    if (s->step % 20 < 4) indexed(s);
    else if (s->step % 20 < 6) listed(s);
    if (++s->step < STEPS) return 1;
    WANT(routes_count(&s->table, &ipv4, &ipv6) == ROUTES_OK && ipv4 == STEPS && ipv6 == 0);
    routes_close(&s->table);
    routes_follower_close(&s->follower);
    routes_index_close(&s->index);
    return 0;
}

/* Takes a set that is waiting for this thread; returns none when all are done. */
static struct set *taken(int thread) {
    pthread_mutex_lock(&lock);
    while (!waiting[thread] && left > 0) pthread_cond_wait(&more, &lock);
    struct set *s = waiting[thread];
    if (s) waiting[thread] = s->next;
    pthread_mutex_unlock(&lock);
    return s;
}

/* Gives a set to a thread. */
static void given(struct set *s, int thread) {
    s->next = waiting[thread];
    waiting[thread] = s;
}

/* Each step of a set is done by the next thread. */
static void *run(void *number) {
    int thread = *(int *)number;
    for (struct set *s; (s = taken(thread));) {
        int goes_on = stepped(s);
        pthread_mutex_lock(&lock);
        steps++;
        if (goes_on) given(s, (thread + 1) % THREADS);
        else left--;
        pthread_cond_broadcast(&more);
        pthread_mutex_unlock(&lock);
    }
    return NULL;
}

/* The index that is published, in one of two handles, and its version. The lock guards them. */
static routes_index handles[2] = {ROUTES_INDEX, ROUTES_INDEX}, *published = handles;
static uint32_t version;
static pthread_mutex_t publishing = PTHREAD_MUTEX_INITIALIZER;

/* Gives this thread a handle of its own, and returns the version. */
static uint32_t shared(routes_index *mine) {
    pthread_mutex_lock(&publishing);
    WANT(routes_index_share(mine, published) == ROUTES_OK);
    uint32_t now = version;
    pthread_mutex_unlock(&publishing);
    return now;
}

/* All addresses of an index have its version as their hop. */
static void looked_up(routes_index *mine, uint32_t now) {
    uint32_t addrs[ADDRS];
    uint64_t hops[ADDRS] = {0}, hop = 0;
    for (uint32_t i = 0; i < ADDRS; i++) {
        addrs[i] = 0x0a000000 | i * 0x3ffff;
        WANT(routes_index_hop4(mine, addrs[i], &hop) == ROUTES_OK && hop == now);
    }
    WANT(routes_index_hop4_many(mine, addrs, ADDRS, hops, ADDRS) == ROUTES_OK);
    for (int i = 0; i < ADDRS; i++) WANT(hops[i] == now);
}

/* Reads the published index, again and again, until the last version. */
static void *reads(void *unused) {
    uint32_t last = 0;
    while (last < VERSIONS) {
        routes_index mine = ROUTES_INDEX;
        uint32_t now = shared(&mine);
        WANT(now >= last);
        looked_up(&mine, now);
        routes_index_close(&mine);
        last = now;
    }
    return unused;
}

/* Changes the table, makes an index, and publishes it in place of the one before, which readers may still have. */
static void publish(routes_table *table) {
    routes_change c = {0};
    routes_index *old = published, *next = old == handles ? handles + 1 : handles;
    WANT(version == 0 || routes_del4(table, 0x0a000000, 8, version, &c) == ROUTES_OK);
    WANT(routes_add4(table, 0x0a000000, 8, version + 1, ROUTES_PREFERENCE, &c) == ROUTES_OK);
    WANT(routes_index_open(next, table) == ROUTES_OK);
    pthread_mutex_lock(&publishing);
    published = next;
    version++;
    pthread_mutex_unlock(&publishing);
    routes_index_close(old);
}

/* Eight readers of the index that this thread publishes. */
static void read_by_many(void) {
    pthread_t threads[READERS];
    routes_table table = ROUTES_TABLE;
    WANT(routes_open(&table) == ROUTES_OK);
    publish(&table);
    for (int i = 0; i < READERS; i++) WANT(pthread_create(&threads[i], NULL, reads, NULL) == 0);
    while (version < VERSIONS) publish(&table);
    for (int i = 0; i < READERS; i++) WANT(pthread_join(threads[i], NULL) == 0);
    routes_index_close(published);
    routes_close(&table);
}

int main(void) {
    pthread_t threads[THREADS];
    int numbers[THREADS];
    for (int i = 0; i < SETS; i++) {
        sets[i].number = (uint32_t)i;
        given(&sets[i], i % THREADS);
    }
    for (int i = 0; i < THREADS; i++) {
        numbers[i] = i;
        WANT(pthread_create(&threads[i], NULL, run, &numbers[i]) == 0);
    }
    for (int i = 0; i < THREADS; i++) WANT(pthread_join(threads[i], NULL) == 0);
    WANT(steps == (long)SETS * STEPS);
    read_by_many();
    printf("%ld steps of %d sets of handles, each on another of %d threads, and %d indexes with %d readers, no difference\n", steps, SETS,
           THREADS, VERSIONS, READERS);
    return 0;
}
