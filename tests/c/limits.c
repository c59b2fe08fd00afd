/* P1 with limits through the header: a shape, no shape, and a limit passed. */
#include "plates.h"
#include <stdio.h>

/* The last two bytes are the limits of strips 0 and 1. */
static uint8_t list[] = {1, 0, 2, 0, 7, 2, 0, 1, 2, 3, 0, 4, 0, 1, 0, 1,
                         4, 0, 4, 0, 2, 1, 3, 5, 0, 1, 1, 7, 0, 2, 0, 0};
static uint8_t shape[24];

static void limit(uint8_t first, uint8_t second) {
    list[sizeof list - 2] = first;
    list[sizeof list - 1] = second;
}

static void write_within(uint8_t first, uint8_t second) {
    uint32_t length = 0, bends = 0;
    limit(first, second);
    uint8_t number = plates_write_shape(list, sizeof list, shape, sizeof shape, &length, &bends);
    printf("write %d length %d bends %d:", number, (int)length, (int)bends);
    for (size_t dart = 0; dart < 4; dart++) {
        printf(" %d", shape[20 + dart]);
    }
    printf("\n");
}

static void check_within(uint8_t first, uint8_t second) {
    uint32_t total = 0, fewest = 0;
    bool ours = false;
    limit(first, second);
    uint8_t number = plates_check_shape(list, sizeof list, shape, sizeof shape, &total, &fewest, &ours);
    printf("check %d total %d fewest %d ours %d\n", number, (int)total, (int)fewest, ours);
}

int main(void) {
    write_within(1, 1);
    write_within(0, 1);
    check_within(1, 1);
    check_within(1, 255);
    check_within(0, 1);
    return 0;
}
