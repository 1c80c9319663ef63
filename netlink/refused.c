/* Installs and removes, and the installs that the kernel refused. */
#define _GNU_SOURCE
#include "fib_kernel.h"
#include <arpa/inet.h>
#include <errno.h>
#include <stdio.h>
#include <stdlib.h>
#include <string.h>
#include <time.h>

enum { ROOM = 4096, NO_HOP = -1 };
static struct refused { struct network network; uint64_t hop; } refused[ROOM];     /* in the order of compare_networks */
static size_t count;
static bool is_more;                             /* than the list has room for */
static uint32_t longest = 64, pause_now = 1;     /* seconds; 0 for no try */
static int64_t due;                              /* in milliseconds */

const struct hop dropped = {.number = DROP, .words = "drop"};

static int64_t now(void)
{
    struct timespec time;
    clock_gettime(CLOCK_MONOTONIC, &time);
    return time.tv_sec * (int64_t)1000 + time.tv_nsec / 1000000;
}

/* The place of a network in the list, or of the first one after it. */
static size_t place_of(const struct network *network, bool *is_there)
{
    size_t low = 0, high = count;
    *is_there = false;
    while (low < high && !*is_there) {
        size_t middle = low + (high - low) / 2;
        int order = memcmp(network, &refused[middle].network, sizeof *network);
        *is_there = !order;
        *(order > 0 ? &low : &high) = order > 0 ? middle + 1 : middle;
    }
    return high;
}

static void forget(const struct network *network)
{
    bool is_there;
    size_t at = place_of(network, &is_there);
    if (is_there)
        memmove(&refused[at], &refused[at + 1], (--count - at) * sizeof *refused);
}

static bool remember(const struct network *network, uint64_t hop)
{
    bool is_there;
    size_t at = place_of(network, &is_there);
    if (!count && !is_more) {
        pause_now = 1;
        due = now() + 1000;
    }
    if (!is_there && count == ROOM)
        return !(is_more = true);
    if (!is_there)
        memmove(&refused[at + 1], &refused[at], (count++ - at) * sizeof *refused);
    refused[at] = (struct refused){*network, hop};
    return true;
}

/* A line on standard error. */
static void say(const struct network *network, uint64_t number, const char *why)
{
    const struct hop *hop = find_hop(number);
    char net[INET6_ADDRSTRLEN], of_hop[160] = "drop";
    inet_ntop(network->family, network->address, net, sizeof net);
    if (number != DROP)
        snprintf(of_hop, sizeof of_hop, hop ? "%u (%s)" : "%u", (uint32_t)number, hop ? hop->words : "");
    fprintf(stderr, "fib_kernel: install %s/%u %s: %s\n", net, network->length, of_hop, why);
}

static void say_answer(const struct network *network, uint64_t number, const struct answer *answer)
{
    char why[300];
    const char *name = strerrorname_np(answer->error);
    snprintf(why, sizeof why, "%s%s%s (%s)", answer->words, *answer->words ? ": " : "", strerror(answer->error), name ? name : "?");
    say(network, number, answer->error == NO_HOP ? "HOPS does not have this hop" : why);
}

static struct answer try_install(const struct network *network, uint64_t number)
{
    const struct hop *hop = find_hop(number);
    struct answer answer = {.error = NO_HOP};
    if (hop && (answer = ask(network, hop)).error && has_new_devices(hop))
        answer = ask(network, hop);
    return answer;
}

/* Whether the kernel has no IPv6, and so no routes of it. This is said once. */
static bool lacks_family(const struct network *network, int error)
{
    static bool is_said;
    bool lacks = network->family == AF_INET6 && error == EOPNOTSUPP;
    if (lacks && !is_said)
        fputs("fib_kernel: the kernel has no IPv6, so networks of IPv6 are passed over\n", stderr);
    is_said |= lacks;
    return lacks;
}

/* A blackhole route takes the place of a refused one. */
void install(const struct network *network, uint64_t number)
{
    struct answer answer = try_install(network, number);
    if (!answer.error) {
        forget(network);
        return;
    }
    int error = number == DROP ? answer.error : ask(network, &dropped).error;
    if (lacks_family(network, error))
        return;
    if (error) {
        say_answer(network, number, &answer);
        exit(1);
    }
    bool had_more = is_more;
    if (remember(network, number))
        say_answer(network, number, &answer);
    else if (!had_more)
        fprintf(stderr, "fib_kernel: more than %d installs are refused; the others are not named\n", ROOM);
}

/* A route that is not there needs no removal. */
void remove_route(const struct network *network)
{
    struct answer answer = ask(network, NULL);
    char net[INET6_ADDRSTRLEN];
    forget(network);
    if (answer.error && answer.error != ESRCH && !lacks_family(network, answer.error))
        fault("remove %s/%u: %s", inet_ntop(network->family, network->address, net, sizeof net), network->length, strerror(answer.error));
}

void set_longest_pause(uint32_t seconds)
{
    longest = seconds;
}

bool has_refused(void)
{
    return count || is_more;
}

int next_try(void)
{
    if (!has_refused() || !longest)
        return -1;
    int64_t rest = due - now();
    return rest > 0 ? (int)rest : 0;
}

void try_soon(void)
{
    due = now();
}

/* If some are taken and more were refused than the list holds, the others are found by a new start. */
void try_refused(void)
{
    size_t all = count, kept = 0;
    if (next_try())
        return;
    for (size_t at = 0; at < all; at++)
        if (try_install(&refused[at].network, refused[at].hop).error)
            refused[kept++] = refused[at];
        else
            say(&refused[at].network, refused[at].hop, "installed now");
    count = kept;
    if (is_more && (kept < all || !kept))
        begin_again("the kernel takes installs that it refused before");
    pause_now = 2 * pause_now < longest ? 2 * pause_now : longest;
    due = now() + pause_now * (int64_t)1000;
}
