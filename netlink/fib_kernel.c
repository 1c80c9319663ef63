/* Options, input and output. */
#define _GNU_SOURCE
#include "fib_kernel.h"
#include <arpa/inet.h>
#include <fcntl.h>
#include <getopt.h>
#include <poll.h>
#include <signal.h>
#include <stdarg.h>
#include <stdio.h>
#include <stdlib.h>
#include <string.h>
#include <sys/prctl.h>
#include <sys/signalfd.h>
#include <unistd.h>

enum { LONGEST_LINE = 80 };
static const char usage[] =
    "usage: fib_kernel list [-p PROTOCOL] HOPS TABLE\n"
    "       routes_fib | fib_kernel load [-p PROTOCOL] [-r SECONDS] HOPS TABLE\n"
    "       fib_kernel watch [-p PROTOCOL] [-r SECONDS] HOPS TABLE\n"
    "\n"
    "    list   writes a line `have NET HOP` for each route of the protocol in the table, and `ok`\n"
    "    load   carries out the lines `install NET HOP` and `remove NET`, and writes `ok` for each line `ok`\n"
    "    watch  does both, and ends with status 3 when a link or a nexthop object changes, an address goes, or another program changes\n"
    "           the table\n"
    "    -p     the protocol of the routes, 1 to 255; the number of the table if it isn't given\n"
    "    -r     the longest pause before a refused install is tried again (64), 0 for no try\n";

static void say(const char *form, va_list more)
{
    fputs("fib_kernel: ", stderr);
    vfprintf(stderr, form, more);
    fputc('\n', stderr);
}

void fault(const char *form, ...)
{
    va_list more;
    va_start(more, form);
    say(form, more);
    exit(1);
}

void begin_again(const char *form, ...)
{
    va_list more;
    va_start(more, form);
    say(form, more);
    exit(AGAIN);
}

bool parse_number(const char *word, uint32_t most, uint32_t *number)
{
    char *end;
    unsigned long long found = strtoull(word, &end, 10);
    *number = (uint32_t)found;
    return *word >= '0' && *word <= '9' && !*end && found <= most;
}

bool parse_address(const char *word, uint8_t *family, unsigned char *address)
{
    *family = strchr(word, ':') ? AF_INET6 : AF_INET;
    return inet_pton(*family, word, address) == 1;
}

static bool parse_network(char *word, struct network *network)
{
    char *slash = strchr(word, '/');
    uint32_t length;
    if (!slash)
        return false;
    *slash = 0;
    bool is_right = parse_address(word, &network->family, network->address)
                    && parse_number(slash + 1, network->family == AF_INET ? 32 : 128, &length);
    network->length = is_right ? length : 0;
    return is_right;
}

/* Whether a line is an operation. It is carried out. */
static bool take_operation(char *line)
{
    struct network network = {0};
    uint32_t number = 0;
    char *rest, *word = strtok_r(line, " ", &rest), *net = strtok_r(NULL, " ", &rest), *hop = strtok_r(NULL, " ", &rest);
    if (!word || !net || strtok_r(NULL, " ", &rest) || !parse_network(net, &network))
        return false;
    if (!hop && !strcmp(word, "remove"))
        remove_route(&network);
    else if (hop && !strcmp(word, "install") && (!strcmp(hop, "drop") || parse_number(hop, UINT32_MAX, &number)))
        install(&network, *hop == 'd' ? DROP : number);
    else
        return false;
    return true;
}

static void take_line(const char *line)
{
    static unsigned long long count;
    char copy[LONGEST_LINE + 1];
    count++;
    if (!strcmp(line, "ok"))
        puts("ok");
    else if (strlen(line) > LONGEST_LINE || !take_operation(strcpy(copy, line)))
        fault("line %llu is no operation: %.*s", count, LONGEST_LINE, line);
}

static void write_out(void)
{
    if (fflush(stdout) || ferror(stdout))
        fault("standard output: %m");
}

/* Carries out the whole lines that have come, in order. Whether there may be more. */
static bool take_input(void)
{
    static char input[1 << 16];
    static size_t held;
    ssize_t came = read(0, input + held, sizeof input - held);
    char *line = input, *end;
    if (came < 0)
        fault("standard input: %m");
    for (held += came; (end = memchr(line, '\n', input + held - line)); line = end + 1) {
        *end = 0;
        take_line(line);
    }
    held -= line - input;
    memmove(input, line, held);
    if (held == sizeof input)
        fault("a line has no end: %.*s", LONGEST_LINE, input);
    write_out();
    return came;
}

/* Until the input ends or a signal comes. A signal waits while operations are carried out. */
static void work(int events, int signals)
{
    struct pollfd from[] = {{.fd = signals, .events = POLLIN}, {.fd = events, .events = POLLIN}, {.fd = 0, .events = POLLIN}};
    for (bool goes_on = true; goes_on;) {
        if (poll(from, 3, next_try()) < 0)
            fault("poll: %m");
        if (from[0].revents)
            return;
        if (from[1].revents)
            take_events();
        try_refused();
        if (from[2].revents)
            goes_on = take_input();
    }
}

/* The end of the parent is a SIGTERM. */
static int open_signals(void)
{
    sigset_t ends;
    sigemptyset(&ends);
    sigaddset(&ends, SIGTERM);
    sigaddset(&ends, SIGINT);
    sigprocmask(SIG_BLOCK, &ends, NULL);
    prctl(PR_SET_PDEATHSIG, SIGTERM);
    int signals = signalfd(-1, &ends, SFD_CLOEXEC);
    if (signals < 0)
        fault("signals: %m");
    return signals;
}

static uint32_t option(const char *word, uint32_t least, uint32_t most, const char *name)
{
    uint32_t number;
    if (!parse_number(word, most, &number) || number < least)
        fault("%s is a number from %u to %u, and not %s", name, least, most, word);
    return number;
}

/* In place of a closed file the kernel would give its number to a socket. */
static void need_open(int file, const char *name)
{
    if (fcntl(file, F_GETFD) < 0)
        fault("%s: %m", name);
}

static void begin(const char *mode, const char *hops, uint32_t table, uint32_t protocol)
{
    bool lists = !strcmp(mode, "list"), watches = !strcmp(mode, "watch");
    need_open(1, "standard output");
    if (!lists)
        need_open(0, "standard input");
    uint32_t port = open_kernel(table, protocol);
    open_hops(hops);
    int signals = lists ? -1 : open_signals();
    if (!lists)
        need_permission();
    int events = watches ? open_events(table, port) : -1;
    if (lists || watches) {
        list_routes();
        puts("ok");
        write_out();
    }
    if (!lists)
        work(events, signals);
}

int main(int count, char **words)
{
    static const struct option help[] = {{"help", no_argument, NULL, 'h'}, {0}};
    uint32_t protocol = 0;
    for (int letter; (letter = getopt_long(count, words, "hp:r:", help, NULL)) != -1;)
        if (letter == 'h')
            return fputs(usage, stdout) < 0;
        else if (letter == 'p')
            protocol = option(optarg, 1, 255, "PROTOCOL");
        else if (letter == 'r')
            set_longest_pause(option(optarg, 0, 86400, "SECONDS"));
        else
            return fputs(usage, stderr), 2;
    const char *mode = count - optind == 3 ? words[optind] : "";
    if (strcmp(mode, "list") && strcmp(mode, "load") && strcmp(mode, "watch"))
        return fputs(usage, stderr), 2;
    uint32_t table = option(words[optind + 2], 1, UINT32_MAX, "TABLE");
    if (!protocol && table > 255)
        fault("a table above 255 needs -p");
    begin(mode, words[optind + 1], table, protocol ? protocol : table);
    return has_refused();
}
