/* P1 with prices through the header: shapes with their sum, and refused ones. */
#include "plates.h"
#include <stdio.h>

/* The last two bytes are the prices of strips 0 and 1. */
static uint8_t list[] = {1, 0, 2, 0, 7, 2, 0, 1, 2, 3, 0, 4, 0, 1, 0, 1,
                         4, 0, 4, 0, 2, 1, 3, 5, 0, 1, 1, 8, 0, 2, 0, 0};
static uint8_t shape[31];

static void price(uint8_t first, uint8_t second) {
    list[sizeof list - 2] = first;
    list[sizeof list - 1] = second;
}

static void write_priced(uint8_t first, uint8_t second, size_t lent) {
    uint32_t length = 0, bends = 0;
    price(first, second);
    uint8_t number = plates_write_shape(list, sizeof list, shape, lent, &length, &bends);
    printf("write %d length %d bends %d:", number, (int)length, (int)bends);
    for (size_t place = 20; place < sizeof shape; place++) {
        printf(" %02x", shape[place]);
    }
    printf("\n");
}

static void check_priced(uint8_t first, uint8_t second, size_t long_) {
    uint32_t total = 0, fewest = 0;
    bool ours = false;
    price(first, second);
    uint8_t number = plates_check_shape(list, sizeof list, shape, long_, &total, &fewest, &ours);
    printf("check %d total %d fewest %d ours %d\n", number, (int)total, (int)fewest, ours);
}

int main(void) {
    write_priced(3, 5, sizeof shape);
    check_priced(3, 5, sizeof shape);
    check_priced(3, 2, sizeof shape);
    check_priced(3, 5, 24);
    check_priced(4, 5, sizeof shape);
    write_priced(5, 3, sizeof shape - 1);
    write_priced(5, 101, sizeof shape);
    write_priced(0, 1, sizeof shape);
    write_priced(100, 99, sizeof shape);
    check_priced(100, 99, sizeof shape);
    return 0;
}
