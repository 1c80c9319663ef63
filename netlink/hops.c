/* The file HOPS: lines `NUMBER WORDS`, with the words that `ip route` takes for a next hop. */
#include "fib_kernel.h"
#include <stdio.h>
#include <stdlib.h>
#include <string.h>
#include <sys/stat.h>

#define BLANKS " \t"
enum { LONGEST_WORDS = MOST_LEGS * 128 };        /* bytes of a hop; a gateway with all its words takes at most 102 */

static const char *path;
static struct stat read_at;
static char *text;                               /* the words of the hops point into it */
static struct hop *hops, **by_way;
static struct leg *legs;
static size_t hop_count, leg_count;

/* Room for one more. It is doubled where the count is a power of two. */
static void *grow(void *array, size_t count, size_t size)
{
    if (!(count & (count - 1)) && !(array = realloc(array, (count ? 2 * count : 1) * size)))
        fault("out of memory");
    return array;
}

static struct leg *add_leg(struct hop *hop)
{
    legs = grow(legs, leg_count, sizeof *legs);
    legs[leg_count] = (struct leg){0};
    hop->count++;
    return &legs[leg_count++];
}

/* Whether this word, with the value after it, belongs to the words of a hop. */
static bool take_word(struct hop *hop, struct leg *leg, const char *word, char **rest)
{
    uint32_t weight;
    if (!strcmp(word, "onlink"))
        return (leg->is_onlink = true);
    char *value = strtok_r(NULL, BLANKS, rest);
    if (value && !strcmp(word, "via") && (!strcmp(value, "inet") || !strcmp(value, "inet6")))
        value = strtok_r(NULL, BLANKS, rest);
    if (!value)
        return false;
    if (!strcmp(word, "via"))
        return parse_address(value, &leg->family, leg->gateway);
    if (!strcmp(word, "dev"))
        return snprintf(leg->name, sizeof leg->name, "%s", value) < (int)sizeof leg->name;
    if (!strcmp(word, "nhid"))
        return parse_number(value, UINT32_MAX, &hop->nhid) && hop->nhid;
    if (strcmp(word, "weight") || !parse_number(value, 256, &weight) || !weight)
        return false;
    leg->weight = weight - 1;
    return true;
}

/* NULL, or why these are not the words of a hop. */
static const char *parse_words(struct hop *hop)
{
    static char why[200], copy[LONGEST_WORDS];
    struct leg *leg = NULL, other;
    char *rest, *word;
    if (snprintf(copy, sizeof copy, "%s", hop->words) >= (int)sizeof copy)
        return "too long";
    for (word = strtok_r(copy, BLANKS, &rest); word; word = strtok_r(NULL, BLANKS, &rest)) {
        bool is_next = !strcmp(word, "nexthop");
        if (!leg || (is_next && *leg->name))
            leg = add_leg(hop);
        if (is_next || take_word(hop, leg, word, &rest))
            continue;
        bool is_address = parse_address(word, &other.family, other.gateway);
        snprintf(why, sizeof why, "%s: %.99s", is_address ? "the word `via` is missing before this address" : "not understood",
                 hop->words + (word - copy));
        return why;
    }
    for (size_t at = leg_count - hop->count; at < leg_count; at++)
        if (!hop->nhid && !*legs[at].name)
            return "no device: `via ADDRESS dev NAME`, `dev NAME` or `nhid NUMBER` is a hop, and `nexthop` begins each of several";
    return !leg ? "no words" : hop->count > MOST_LEGS ? "too many gateways" : NULL;
}

static void parse_line(char *line, size_t number)
{
    char *end = line + strcspn(line, BLANKS);
    struct hop hop = {.words = end + strspn(end, BLANKS)};
    uint32_t found = 0;
    bool has_return = strchr(line, '\r');
    *end = 0;
    bool is_number = parse_number(line, UINT32_MAX - 1, &found);
    const char *why = has_return ? "a carriage return" : !is_number ? "it does not begin with a number" : parse_words(&hop);
    if (why)
        fault("%s, line %zu: %s", path, number, why);
    hop.number = found;
    hops = grow(hops, hop_count, sizeof *hops);
    hops[hop_count++] = hop;
}

static int by_number(const void *a, const void *b)
{
    uint64_t x = ((const struct hop *)a)->number, y = ((const struct hop *)b)->number;
    return (x > y) - (x < y);
}

static int compare_ways(const void *a, const void *b)
{
    const struct hop *x = *(struct hop *const *)a, *y = *(struct hop *const *)b;
    int order = x->nhid || y->nhid ? (x->nhid > y->nhid) - (x->nhid < y->nhid) : (int)x->count - (int)y->count;
    for (uint32_t i = 0; !order && !x->nhid && i < x->count; i++)
        order = memcmp(&x->legs[i], &y->legs[i], offsetof(struct leg, name));
    return order;
}

/* Gateways that follow one another often have one device. Then one question to the kernel serves them all. */
static bool has_device_of_last(const struct leg *leg)
{
    return leg > legs && !strcmp(leg->name, leg[-1].name);
}

static void read_devices(void)
{
    for (size_t i = 0; i < leg_count; i++)
        legs[i].device = has_device_of_last(&legs[i]) ? legs[i - 1].device : find_device(legs[i].name);
    qsort(by_way, hop_count, sizeof *by_way, compare_ways);
}

static void sort_hops(void)
{
    struct leg *at = legs;
    if (!(by_way = realloc(by_way, (hop_count + 1) * sizeof *by_way)))
        fault("out of memory");
    for (size_t i = 0; i < hop_count; at += hops[i++].count)
        hops[i].legs = at;
    qsort(hops, hop_count, sizeof *hops, by_number);
    for (size_t i = 0; i < hop_count; i++) {
        if (i && hops[i].number == hops[i - 1].number)
            fault("%s: two lines have the number %u", path, (uint32_t)hops[i].number);
        by_way[i] = &hops[i];
    }
}

static void read_hops(void)
{
    FILE *file = fopen(path, "r");
    size_t number = 0;
    if (!file || fstat(fileno(file), &read_at))
        fault("%s: %m", path);
    if (!(text = realloc(text, read_at.st_size + 1)))
        fault("out of memory");
    text[fread(text, 1, read_at.st_size, file)] = 0;
    if (ferror(file))
        fault("%s: %m", path);
    fclose(file);
    hop_count = leg_count = 0;
    for (char *line = text, *end; *line; line = end) {
        end = line + strcspn(line, "\n");
        if (*end)
            *end++ = 0;
        parse_line(line, ++number);
    }
    sort_hops();
    read_devices();
}

void open_hops(const char *name)
{
    path = name;
    read_hops();
}

static bool has_changed(void)
{
    struct stat now;
    return !stat(path, &now) && (now.st_ino != read_at.st_ino || now.st_size != read_at.st_size
                                 || now.st_mtim.tv_sec != read_at.st_mtim.tv_sec || now.st_mtim.tv_nsec != read_at.st_mtim.tv_nsec);
}

const struct hop *find_hop(uint64_t number)
{
    struct hop key = {.number = number}, *found = bsearch(&key, hops, hop_count, sizeof key, by_number);
    if (!found && number != DROP && has_changed()) {
        read_hops();
        found = bsearch(&key, hops, hop_count, sizeof key, by_number);
    }
    return number == DROP ? &dropped : found;
}

uint64_t number_of(const struct hop *way)
{
    struct hop **found = bsearch(&way, by_way, hop_count, sizeof *by_way, compare_ways);
    return found ? (*found)->number : UNKNOWN;
}

bool has_new_devices(const struct hop *hop)
{
    bool is_new = false;
    for (uint32_t i = 0; i < hop->count; i++)
        if (!i || !has_device_of_last(&hop->legs[i]))
            is_new |= hop->legs[i].device != find_device(hop->legs[i].name);
    if (is_new)
        read_devices();
    return is_new;
}

bool uses_objects(void)
{
    for (size_t i = 0; i < hop_count; i++)
        if (hops[i].nhid)
            return true;
    return false;
}

/* An object may use any device. */
bool uses_device(uint32_t device, const char *name)
{
    for (size_t i = 0; i < leg_count; i++)
        if (legs[i].device == device || (name && !strcmp(legs[i].name, name)))
            return true;
    return uses_objects();
}
