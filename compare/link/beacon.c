/* Reads document 01's beacon and prints its sender and the number of its records. */
#include "board.h"
#include <stdio.h>

int main(void) {
    const uint8_t header[] = {0x42, 0x09}, payload[] = {1, 2, 3, 4, 5, 0xC6, 2, 1, 6};
    BoardPacket p = board_decode(header, sizeof header, payload, sizeof payload);
    if (p.number != 0)
        return printf("refused %d\n", p.number), 1;
    for (int i = 5; i >= 0; i--)
        printf("%02x%s", p.sender[i], i > 0 ? ":" : p.sender_random ? " (random) " : " (public) ");
    printf("records: %zu\n", p.count);
    return 0;
}
