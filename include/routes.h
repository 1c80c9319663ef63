/* Jolmidda's route table for C: the proved calls of the crate routes_c.
 *
 * The result and the effect of each call are proved for every input, as long as the caller keeps four rules. Nothing checks these
 * rules:
 *
 *   1. A table is a routes_table that is initialized with ROUTES_TABLE or zero bytes (as from calloc), or that earlier calls
 *      left. Do not copy or modify it, and do not move it while it is open. It may be anywhere, also on the stack; its contents
 *      are on the heap until routes_close. The same rules hold for an index, a routes_index, and for a follower, a
 *      routes_follower.
 *   2. Every other pointer must be non-null, even for length 0. It must point to initialized memory of full size, even if the
 *      call fails. No two pointers of a call may overlap.
 *   3. Make one call at a time on a table, an index or a follower, lookups included. A call that takes two of them is a call on
 *      both. Any thread may make a call after the previous one has returned, if a lock, the start or join of a thread, or a
 *      sequentially consistent atomic orders the two. Calls on different handles may run at the same time, also on handles that
 *      share one index (routes_index_share).
 *   4. malloc, realloc and free belong to one allocator on all threads, as those of the C library do: memory that one thread
 *      allocated may be freed by another. Make no call in a signal handler, or in the forked child of a process with threads.
 *
 * Numbers are in host byte order: an IPv4 address is ntohl(in_addr.s_addr). An IPv6 address is two numbers, its upper and its
 * lower half, which routes_half reads from the 16 bytes of an in6_addr. A call that takes a network ignores the address bits
 * after the length. In a network that a call returns, these bits are 0. Check a length or a preference before you pass it from a
 * larger type: C makes 0 of 256 without a word.
 *
 * A call that can fail returns a status, a number of routes_answer. If it is not ROUTES_OK, the table, its lists and the targets
 * of the pointers are unchanged. There are two exceptions, routes_line and routes_follower_line. */
#ifndef ROUTES_H
#define ROUTES_H

#include <stdbool.h>
#include <stddef.h>
#include <stdint.h>

#ifdef __cplusplus
extern "C" {
#endif

/* The statuses of the calls that can fail. If several apply, ROUTES_TOO_LONG and ROUTES_OPEN come first. */
enum routes_answer {
    ROUTES_OK = 0,
    ROUTES_MISSING = 1,    /* no network contains the address, or it has no hop; the network has no such hop; or
                            * the position is past the end of the list */
    ROUTES_NO_MEMORY = 2,  /* malloc or realloc failed, an index would be too large, or too many handles share an
                            * index */
    ROUTES_CLOSED = 3,     /* the table, the index or the follower is not open, or it is open as another of these
                            * three kinds */
    ROUTES_OPEN = 4,       /* it is open already, as any of the three kinds */
    ROUTES_FULL = 5,       /* the network has routes by eight other hops, which is the most */
    ROUTES_TOO_LONG = 6,   /* the length is above 32 for IPv4, or above 128 for IPv6 */
    ROUTES_NOT_A_LINE = 7, /* the text is not a reply line of `routes lead` */
    ROUTES_FAILED = 8      /* the follower had a fault before */
};

/* As the hop of a route: a null route, which discards packets. In a change and in an index: the addresses have no hop. */
#define ROUTES_DROP (UINT64_C(1) << 32)
/* In a lookup of many addresses: no network contains the address. */
#define ROUTES_NO_MATCH (UINT64_C(1) << 33)
/* The preference of a command line that has none. The route with the greatest preference is best. Among equal preferences the
 * smallest hop number is best, and ROUTES_DROP is last. */
#define ROUTES_PREFERENCE 100

/* A table, owned by the caller: 16 bytes. Zero bytes are a closed table. */
typedef struct routes_table {
    void *at;
    bool is_open;
} routes_table;
#define ROUTES_TABLE {NULL, false}

/* A route: 32 bytes. */
typedef struct routes_route {
    uint64_t high, low; /* the network's address; an IPv4 address is in low, and high is 0 */
    uint64_t hop;       /* a number below 2^32, or ROUTES_DROP */
    uint16_t pref;
    uint8_t family;     /* 4 or 6 */
    uint8_t len;
} routes_route;

/* The next hop before and after a change, for the addresses of the network that no longer (more specific) stored network
 * contains. If the two are equal, no address changed its hop. */
typedef struct routes_change {
    uint64_t before, after; /* a number below 2^32, or ROUTES_DROP for no hop */
} routes_change;

/* A block of addresses with one hop: 24 bytes. */
typedef struct routes_piece {
    uint64_t high, low;
    uint32_t hop;
    uint8_t family;
    uint8_t len;
} routes_piece;

/* An IPv6 address: 16 bytes. */
typedef struct routes_addr6 {
    uint64_t high, low;
} routes_addr6;

/* Opens a closed table, without networks. Its lists and its reply are empty. Returns ROUTES_OK, ROUTES_NO_MEMORY or ROUTES_OPEN. */
uint32_t routes_open(routes_table *table);

/* Closes a table, and frees its memory. A closed table stays closed. A table may be opened again. */
void routes_close(routes_table *table);

/* Looks up the longest match of an address: the best route of the longest stored network that contains it. Does not allocate.
 * Returns ROUTES_OK and the route, ROUTES_MISSING if no stored network contains the address, or ROUTES_CLOSED. */
uint32_t routes_get4(routes_table *table, uint32_t addr, routes_route *route);
uint32_t routes_get6(routes_table *table, uint64_t high, uint64_t low, routes_route *route);

/* Looks up the longest matches of many addresses. hops[i] is the hop of addrs[i], or ROUTES_NO_MATCH, for each i below both
 * `count` and `room`. The rest of `hops` is unchanged. Does not allocate. Returns ROUTES_OK or ROUTES_CLOSED. */
uint32_t routes_get4_many(routes_table *table, const uint32_t *addrs, size_t count, uint64_t *hops, size_t room);
uint32_t routes_get6_many(routes_table *table, const routes_addr6 *addrs, size_t count, uint64_t *hops, size_t room);

/* Counts the stored networks of each family. Does not allocate. Returns ROUTES_OK and the numbers, or ROUTES_CLOSED. */
uint32_t routes_count(routes_table *table, size_t *ipv4, size_t *ipv6);

/* Adds a route to the network. If the network has this hop already, its preference changes. A hop from 2^32 on is ROUTES_DROP.
 * Returns ROUTES_OK and the change, ROUTES_FULL, ROUTES_NO_MEMORY, ROUTES_TOO_LONG or ROUTES_CLOSED. It returns ROUTES_FULL
 * exactly if the network has routes by eight other hops, and ROUTES_NO_MEMORY only if the network is not stored. */
uint32_t routes_add4(routes_table *table, uint32_t addr, uint8_t len, uint64_t hop, uint16_t pref, routes_change *change);
uint32_t routes_add6(routes_table *table, uint64_t high, uint64_t low, uint8_t len, uint64_t hop, uint16_t pref,
                     routes_change *change);

/* Removes the route of this hop, and removes the network with its last route. A hop from 2^32 on is ROUTES_DROP. Does not
 * allocate. Returns ROUTES_OK and the change, ROUTES_MISSING if the network has no such hop, ROUTES_TOO_LONG or ROUTES_CLOSED. */
uint32_t routes_del4(routes_table *table, uint32_t addr, uint8_t len, uint64_t hop, routes_change *change);
uint32_t routes_del6(routes_table *table, uint64_t high, uint64_t low, uint8_t len, uint64_t hop, routes_change *change);

/* Makes the flat list, in the table's memory: the fewest one-hop blocks that cover just the addresses with a hop, IPv4 first,
 * ascending. The list keeps its memory, and is unchanged, until the next routes_flat or the close, even if the table changes.
 * Returns ROUTES_OK, ROUTES_NO_MEMORY or ROUTES_CLOSED. */
uint32_t routes_flat(routes_table *table);

/* Reads the block at a position of this list, which is empty before the first routes_flat. The first position is 0. Returns
 * ROUTES_OK, ROUTES_MISSING past the end of the list, or ROUTES_CLOSED. */
uint32_t routes_piece_at(routes_table *table, size_t index, routes_piece *piece);

/* Copies this list from position `from` on, as far as there is room. Returns the number of blocks copied: 0 at the end, and for a
 * closed table. The rest of `pieces` is unchanged. */
size_t routes_read_pieces(routes_table *table, size_t from, routes_piece *pieces, size_t room);

/* The list of routes, in the table's memory. Each of the calls down to routes_least makes a new list. The list keeps its memory,
 * and is unchanged, until the next of these calls or the close, even if the table changes. routes_route_at and routes_read read
 * it. Each of these calls returns ROUTES_OK, ROUTES_NO_MEMORY, ROUTES_TOO_LONG if it takes a length, or ROUTES_CLOSED.
 *
 * routes_list: the best routes of the stored networks inside the network, itself included, ascending. A network comes before
 * those inside it. */
uint32_t routes_list4(routes_table *table, uint32_t addr, uint8_t len);
uint32_t routes_list6(routes_table *table, uint64_t high, uint64_t low, uint8_t len);

/* The best routes of the stored networks that contain the network, itself included, shortest first. */
uint32_t routes_cover4(routes_table *table, uint32_t addr, uint8_t len);
uint32_t routes_cover6(routes_table *table, uint64_t high, uint64_t low, uint8_t len);

/* A page: at most `limit` best routes of the family's stored networks, from the network on or after it, ascending. The network
 * need not be stored. For the next page, ask for the routes after the last network of this page. */
uint32_t routes_from4(routes_table *table, uint32_t addr, uint8_t len, size_t limit);
uint32_t routes_from6(routes_table *table, uint64_t high, uint64_t low, uint8_t len, size_t limit);
uint32_t routes_after4(routes_table *table, uint32_t addr, uint8_t len, size_t limit);
uint32_t routes_after6(routes_table *table, uint64_t high, uint64_t low, uint8_t len, size_t limit);

/* All routes of exactly the network, best first; none if it is not stored. */
uint32_t routes_all4(routes_table *table, uint32_t addr, uint8_t len);
uint32_t routes_all6(routes_table *table, uint64_t high, uint64_t low, uint8_t len);

/* The maximal blocks of the addresses that the network governs: those that no stored network strictly inside it contains. The
 * blocks ascend. Each has the hop of its addresses, or ROUTES_DROP for none, and ROUTES_PREFERENCE. If a change of the network
 * returned two different hops, these are the addresses whose hop changed. */
uint32_t routes_governed4(routes_table *table, uint32_t addr, uint8_t len);
uint32_t routes_governed6(routes_table *table, uint64_t high, uint64_t low, uint8_t len);

/* The blocks of the flat list with this hop number, IPv4 first, ascending, each with the number and ROUTES_PREFERENCE. */
uint32_t routes_own(routes_table *table, uint32_t number);

/* The routes of a least table: the fewest with the same hop at every address, IPv4 first, ascending, with ROUTES_PREFERENCE. If
 * there are several such tables, it is any of them. */
uint32_t routes_least(routes_table *table);

/* Reads the route at a position of the list of routes, which is empty before the first of the calls above. Returns ROUTES_OK,
 * ROUTES_MISSING past the end of the list, or ROUTES_CLOSED. */
uint32_t routes_route_at(routes_table *table, size_t index, routes_route *route);

/* Copies the list of routes from position `from` on, as far as there is room. Returns the number of routes copied: 0 at the end,
 * and for a closed table. The rest of `routes` is unchanged. */
size_t routes_read(routes_table *table, size_t from, routes_route *routes, size_t room);

/* Carries out a command line of `routes lead`, given without its line end, and stores the reply: the bytes that `routes lead`
 * prints for it. Returns ROUTES_OK, even if the reply is `bad`, `none` or `refused`, ROUTES_NO_MEMORY or ROUTES_CLOSED. It
 * returns ROUTES_NO_MEMORY if an allocation for the reply fails. Then the table is the one after the line, and a beginning of the
 * reply is stored. */
uint32_t routes_line(routes_table *table, const uint8_t *line, size_t len);

/* Copies the stored reply from byte `from` on, as far as there is room. Returns the number of bytes copied: 0 at the end, and for
 * a closed table. The rest of `out` is unchanged. The reply is unchanged until the next routes_line. */
size_t routes_reply(routes_table *table, size_t from, uint8_t *out, size_t room);

/* An index, owned by the caller: the hop of each address, as a table had it when the index was opened. An index is a snapshot:
 * later changes are not visible. Close it and open it again to see them. Its lookups are faster than the table's. It has 16
 * bytes; zero bytes are a closed index. */
typedef struct routes_index {
    void *at;
    bool is_open;
} routes_index;
#define ROUTES_INDEX {NULL, false}

/* Opens a closed index, with the hops that the table has now. It needs the table no longer: the table may change or be closed.
 * Returns ROUTES_OK, ROUTES_NO_MEMORY, ROUTES_CLOSED if the table is not open, or ROUTES_OPEN if the index is. */
uint32_t routes_index_open(routes_index *index, routes_table *table);

/* Opens a closed index as another handle of the snapshot that `from` has. Copies nothing of the snapshot. Each of the handles is
 * used and closed by itself, on any thread; give each thread that looks up addresses a handle of its own. Returns ROUTES_OK,
 * ROUTES_NO_MEMORY, ROUTES_CLOSED if `from` is not open, or ROUTES_OPEN if the index is. */
uint32_t routes_index_share(routes_index *index, routes_index *from);

/* Closes an index. The last close of the handles that share a snapshot frees its memory. A closed index stays closed. An index
 * may be opened again. */
void routes_index_close(routes_index *index);

/* Looks up the hop of an address: a number below 2^32, or ROUTES_DROP for no hop. An address has no hop if no network contains
 * it, or if its longest match has a null route. Does not allocate. Returns ROUTES_OK and the hop, or ROUTES_CLOSED. */
uint32_t routes_index_hop4(routes_index *index, uint32_t addr, uint64_t *hop);
uint32_t routes_index_hop6(routes_index *index, uint64_t high, uint64_t low, uint64_t *hop);

/* Looks up the hops of many addresses: hops[i] is the hop of addrs[i], for each i below both `count` and `room`. The rest of
 * `hops` is unchanged. Does not allocate. Returns ROUTES_OK or ROUTES_CLOSED. */
uint32_t routes_index_hop4_many(routes_index *index, const uint32_t *addrs, size_t count, uint64_t *hops, size_t room);
uint32_t routes_index_hop6_many(routes_index *index, const routes_addr6 *addrs, size_t count, uint64_t *hops, size_t room);

/* A follower, owned by the caller: the hops that the reply lines of `routes lead` report. A change is pending until its reply is
 * closed, and `ok` commits it. It has 16 bytes; zero bytes are a closed follower. */
typedef struct routes_follower {
    void *at;
    bool is_open;
} routes_follower;
#define ROUTES_FOLLOWER {NULL, false}

/* Opens a closed follower: no address has a hop, and its lists are empty. Returns ROUTES_OK, ROUTES_NO_MEMORY or ROUTES_OPEN. */
uint32_t routes_follower_open(routes_follower *follower);

/* Closes a follower, and frees its memory. A closed follower stays closed. A follower may be opened again. */
void routes_follower_close(routes_follower *follower);

/* Reads a reply line, given without its line end. Returns ROUTES_OK, ROUTES_NO_MEMORY if a change cannot be kept or committed,
 * ROUTES_NOT_A_LINE, ROUTES_FAILED or ROUTES_CLOSED. ROUTES_NO_MEMORY and ROUTES_NOT_A_LINE are faults. After a fault the
 * follower reads no lines, looks up no hops, and makes no lists and no index, until it is closed and opened again. Lists that it
 * made before can still be read. */
uint32_t routes_follower_line(routes_follower *follower, const uint8_t *line, size_t len);

/* Looks up the hop of an address: a number. Does not allocate. Returns ROUTES_OK and the hop, ROUTES_MISSING if the address has
 * none, ROUTES_FAILED or ROUTES_CLOSED. For many lookups between changes, an index of the follower is faster. */
uint32_t routes_follower_get4(routes_follower *follower, uint32_t addr, uint32_t *hop);
uint32_t routes_follower_get6(routes_follower *follower, uint64_t high, uint64_t low, uint32_t *hop);

/* The first makes the flat list of the hops, in the follower's memory, as routes_flat does. It returns ROUTES_OK,
 * ROUTES_NO_MEMORY, ROUTES_FAILED or ROUTES_CLOSED. The second reads the block at a position of this list. It returns ROUTES_OK,
 * ROUTES_MISSING past the end of the list, or ROUTES_CLOSED. */
uint32_t routes_follower_flat(routes_follower *follower);
uint32_t routes_follower_piece_at(routes_follower *follower, size_t index, routes_piece *piece);

/* Copies this list from position `from` on, as routes_read_pieces does. Returns 0 at the end, and for a closed follower. */
size_t routes_follower_read_pieces(routes_follower *follower, size_t from, routes_piece *pieces, size_t room);

/* Makes the list of the routes of a least table with the same hop at every address, in the follower's memory, as routes_least
 * does. The list is unchanged until the next routes_follower_least, and empty before the first. Returns ROUTES_OK,
 * ROUTES_NO_MEMORY, ROUTES_FAILED or ROUTES_CLOSED. */
uint32_t routes_follower_least(routes_follower *follower);

/* Reads the route at a position of this list. Returns ROUTES_OK, ROUTES_MISSING past the end of the list, or ROUTES_CLOSED. */
uint32_t routes_follower_route_at(routes_follower *follower, size_t index, routes_route *route);

/* Copies this list from position `from` on, as routes_read does. Returns 0 at the end, and for a closed follower. */
size_t routes_follower_read(routes_follower *follower, size_t from, routes_route *routes, size_t room);

/* Opens a closed index, with the hops that the follower has now. It is a snapshot: later lines are not visible, and the follower
 * may be closed. Returns ROUTES_OK, ROUTES_NO_MEMORY, ROUTES_CLOSED if the follower is not open, ROUTES_FAILED, or ROUTES_OPEN if
 * the index is open. */
uint32_t routes_follower_index(routes_index *index, routes_follower *follower);

/* Reads eight bytes in network byte order as a number. For an in6_addr, routes_half(a) is the upper half, and routes_half(a + 8)
 * the lower. */
static inline uint64_t routes_half(const uint8_t *bytes) {
    uint64_t number = 0;
    for (int i = 0; i < 8; i++) number = number << 8 | bytes[i];
    return number;
}

#ifdef __cplusplus
}
#endif
#endif
