/* Document 01's plate P1 through the header: shape, verdict and listing. */
#include "plates.h"
#include <stdio.h>

static const uint8_t list[] = {1, 0, 2, 0, 7, 2, 0, 1, 2, 3, 0, 4, 0, 1,
                               0, 1, 4, 0, 4, 0, 2, 1, 3, 5, 0, 1, 1};

int main(void) {
    uint8_t shape[64], text[256];
    uint32_t length = 0, bends = 0, total = 0, fewest = 0;
    size_t text_length = 0;
    bool ours = false;
    uint8_t number = plates_write_shape(list, sizeof list, shape, sizeof shape, &length, &bends);
    printf("write %d length %d bends %d\n", number, (int)length, (int)bends);
    number = plates_check_shape(list, sizeof list, shape, length, &total, &fewest, &ours);
    printf("check %d total %d fewest %d ours %d\n", number, (int)total, (int)fewest, ours);
    number = plates_check_shape(list, sizeof list - 1, shape, length, &total, &fewest, &ours);
    printf("check %d total %d fewest %d ours %d\n", number, (int)total, (int)fewest, ours);
    number = plates_write_listing(list, sizeof list, text, sizeof text, &text_length);
    printf("listing %d\n%.*s", number, (int)text_length, (const char *)text);
    return number == PLATES_ACCEPTED ? 0 : 1;
}
