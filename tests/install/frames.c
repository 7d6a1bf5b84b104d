/* The frames of contents: reads contents from standard input, two bytes of length before each, and prints of each its checksum and its frame. The
 * frame is made three times: of a content that stands elsewhere, behind the header's place, and at the frame's beginning.
 *
 * Last it prints the length of the frame of a content that has none, and whether something was written for it.
 */
#include <wellacorn.h>

#include <stdio.h>

enum { LONGEST = 65535 };

static uint8_t content[LONGEST + 1], frames[3][WELLACORN_HEADER + LONGEST + 1];

static void print_frame(uint64_t n)
{
    const uint64_t len = wellacorn_frame(frames[0], content, n);
    memcpy(frames[1] + WELLACORN_HEADER, content, (size_t)n);
    memcpy(frames[2], content, (size_t)n);
    printf("%04X ", (unsigned)wellacorn_checksum(content, n));
    for (uint64_t i = 0; i < len; i++) {
        printf("%02X", (unsigned)frames[0][i]);
    }
    for (int i = 1; i < 3; i++) {
        uint8_t *start = i == 1 ? frames[i] + WELLACORN_HEADER : frames[i];
        if (wellacorn_frame(frames[i], start, n) != len || memcmp(frames[i], frames[0], (size_t)len) != 0) {
            printf(" differs in place");
        }
    }
    putchar('\n');
}

int main(void)
{
    uint8_t length[2];
    while (fread(length, 1, 2, stdin) == 2) {
        const size_t n = (size_t)length[0] << 8 | length[1];
        if (fread(content, 1, n, stdin) != n) {
            return 1;
        }
        print_frame(n);
    }
    memset(frames[0], 0xA5, sizeof frames[0]);
    printf("too long %u", (unsigned)wellacorn_frame(frames[0], content, LONGEST + 1));
    printf(" %s\n", frames[0][0] == 0xA5 && frames[0][4] == 0xA5 && frames[0][5] == 0xA5 ? "nothing written" : "written");
    return 0;
}
