/* fib_kernel carries out the operations of routes_fib in a routing table of the kernel. fib_kernel.8 describes the program. */
#ifndef FIB_KERNEL_H
#define FIB_KERNEL_H
#include <net/if.h>
#include <stdbool.h>
#include <stddef.h>
#include <stdint.h>

enum { MOST_LEGS = 256, AGAIN = 3 };             /* the gateways of a next hop; the status that asks for a new start */
#define DROP ((uint64_t)1 << 32)                 /* one more than the numbers of next hops */
#define UNKNOWN ((uint64_t)UINT32_MAX)           /* the number of a route's next hop that HOPS does not have */

struct network { uint8_t family, length; unsigned char address[16]; };
struct leg { uint32_t device; uint8_t family, weight, is_onlink; unsigned char gateway[16]; char name[IFNAMSIZ]; };
struct hop { uint64_t number; uint32_t nhid, count; struct leg *legs; const char *words; };
struct answer { int error; char words[200]; };   /* the number of the error, 0 for none, and the kernel's words */

/* fib_kernel.c */
void fault(const char *form, ...) __attribute__((format(printf, 1, 2), noreturn));
void begin_again(const char *form, ...) __attribute__((format(printf, 1, 2), noreturn));
bool parse_number(const char *word, uint32_t most, uint32_t *number);
bool parse_address(const char *word, uint8_t *family, unsigned char *address);

/* hops.c */
extern const struct hop dropped;
void open_hops(const char *path);
const struct hop *find_hop(uint64_t number);     /* NULL if HOPS has no such line. If the file has changed, it is read again */
uint64_t number_of(const struct hop *way);       /* the number of the hop with this object or these gateways, or UNKNOWN */
bool has_new_devices(const struct hop *hop);     /* whether a device of the hop has another index than before */
bool uses_objects(void);
bool uses_device(uint32_t device, const char *name);

/* kernel.c */
uint32_t open_kernel(uint32_t table, uint32_t protocol);                    /* the port of the socket for operations */
struct answer ask(const struct network *network, const struct hop *hop);   /* install, or remove if there is no hop */
uint32_t find_device(const char *name);          /* its index, or 0 */
void need_permission(void);
void list_routes(void);

/* refused.c */
void install(const struct network *network, uint64_t hop);
void remove_route(const struct network *network);
void set_longest_pause(uint32_t seconds);
int next_try(void);                              /* milliseconds until refused installs are tried again, -1 for never */
void try_soon(void);
void try_refused(void);
bool has_refused(void);

/* events.c */
int open_events(uint32_t table, uint32_t port);
void take_events(void);
#endif
