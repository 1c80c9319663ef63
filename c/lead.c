/* `routes lead` with the library: lines from standard input, replies to standard output. A rest without a line end is `bad`. */
#include "routes.h"
#include <stdio.h>
#include <stdlib.h>
#include <string.h>

#define PIECE (1 << 20)

static uint8_t *input;
static size_t size;

static int read_all(void) {
    size_t room = 0, got;
    do {
        if (size + PIECE > room) {
            uint8_t *more = realloc(input, room = 2 * (size + PIECE));
            if (!more) return 1;
            input = more;
        }
        got = fread(input + size, 1, PIECE, stdin);
        size += got;
    } while (got);
    return 0;
}

static int answer(routes_table *table, const uint8_t *line, size_t len) {
    uint8_t out[4096] = {0};
    if (routes_line(table, line, len) != ROUTES_OK) return 1;
    for (size_t from = 0, got; (got = routes_reply(table, from, out, sizeof out)) > 0; from += got)
        if (fwrite(out, 1, got, stdout) != got) return 1;
    return 0;
}

int main(void) {
    routes_table table = ROUTES_TABLE;
    int status = read_all() || routes_open(&table) != ROUTES_OK;
    for (uint8_t *at = input, *end = input + size; !status && at < end;) {
        uint8_t *stop = memchr(at, '\n', (size_t)(end - at));
        status = stop ? answer(&table, at, (size_t)(stop - at)) : answer(&table, (const uint8_t *)"?", 1);
        at = stop ? stop + 1 : end;
    }
    routes_close(&table);
    free(input);
    return status;
}
