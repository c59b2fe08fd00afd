/* An older shape file through the header: put in order, and refused. */
#include "plates.h"
#include <stdio.h>

static const uint8_t older[] = {0x12, 0, 2, 0, 0, 0x11, 0, 2, 0, 7,
                                0x14, 0, 2, 0, 0, 0x13, 0, 2, 4, 4};

static void say(size_t file_length, size_t out_length) {
    uint8_t out[sizeof older] = {0};
    size_t length = 1;
    uint8_t number = plates_order_fields(older, file_length, out, out_length, &length);
    printf("%d length %d:", number, (int)length);
    for (size_t i = 0; i < length; i++) {
        printf(" %02x", out[i]);
    }
    printf("\n");
}

int main(void) {
    say(sizeof older, sizeof older);
    say(sizeof older, sizeof older - 1);
    say(sizeof older - 1, sizeof older);
    say(0, sizeof older);
    return 0;
}
