/* A host without a network, around the loop that the header's first comment has to be copied: tests/test_install.py takes it out of there into loop.h.
 *
 * Connection 0 is an administrator's, connection 1 a user's and strict. What standard input has comes on connection 0. Prints each thing that is sent,
 * with its connection, whether all was taken, the content of the message that ended last, and what comes of a shut connection.
 */
#include <wellacorn.h>

#include <stdio.h>

static void print_bytes(const uint8_t *bytes, uint64_t n)
{
    for (uint64_t i = 0; i < n; i++) {
        printf("%02X", (unsigned)bytes[i]);
    }
    putchar('\n');
}

static void send_whole(uint8_t c, const uint8_t *bytes, uint64_t n)
{
    if (n > 0) {
        printf("%u ", (unsigned)c);
        print_bytes(bytes, n);
    }
}

#include "loop.h"

int main(void)
{
    static wellacorn_settings settings;
    static uint8_t came[65536];
    const uint8_t *content;
    uint64_t n = fread(came, 1, sizeof came, stdin);
    wellacorn_box_power_up(&box, settings);
    if (wellacorn_box_connect(&box, 0, 2, 0).answer != WELLACORN_SERVED || wellacorn_box_connect(&box, 1, 1, 1).answer != WELLACORN_SERVED) {
        return 1;
    }
    wellacorn_box_pass(&box, 1234);
    printf("all %d\n", serve(0, came, n));
    collect();
    n = wellacorn_box_content(&box, 0, &content);
    printf("content ");
    print_bytes(content, n);
    wellacorn_box_close(&box, 0);
    printf("shut %d, content %u\n", serve(0, came, 1), (unsigned)wellacorn_box_content(&box, 0, &content));
    return 0;
}
