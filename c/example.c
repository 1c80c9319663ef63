/* The example of docs/C.md. */
#include <routes.h>
#include <stdio.h>

int main(void) {
    routes_table table = ROUTES_TABLE;
    routes_change change = {0};
    routes_route route = {0};
    routes_piece piece = {0};
    uint8_t reply[256] = {0};
    static const uint8_t line[] = "cover 10.64.0.0/10";

    if (routes_open(&table) != ROUTES_OK) return 1;
    if (routes_add4(&table, 0x0a000000, 8, 1, ROUTES_PREFERENCE, &change) != ROUTES_OK) return 1; /* 10.0.0.0/8 to hop 1 */
    if (routes_add4(&table, 0x0a400000, 10, 2, ROUTES_PREFERENCE, &change) != ROUTES_OK) return 1; /* 10.64.0.0/10 to hop 2 */
    if (change.before != change.after) printf("from hop %u to %u\n", (unsigned)change.before, (unsigned)change.after);

    if (routes_get4(&table, 0x0a410203, &route) == ROUTES_OK) /* 10.65.2.3 */
        printf("hop %u, /%u\n", (unsigned)route.hop, (unsigned)route.len);

    if (routes_flat(&table) != ROUTES_OK) return 1;
    for (size_t i = 0; routes_piece_at(&table, i, &piece) == ROUTES_OK; i++)
        printf("%08x/%u %u\n", (unsigned)piece.low, (unsigned)piece.len, (unsigned)piece.hop);

    if (routes_line(&table, line, sizeof line - 1) != ROUTES_OK) return 1;
    for (size_t from = 0, n; (n = routes_reply(&table, from, reply, sizeof reply)) > 0; from += n)
        fwrite(reply, 1, n, stdout);
    routes_close(&table);
    return 0;
}
