/* The three steps of the editor on P1 through the header, one after the other, and
 * refused ones. */
#include "plates.h"
#include <stdio.h>
#include <string.h>

/* The last two bytes are the limits of strips 0 and 1. */
static uint8_t list[793] = {1, 0, 2, 0, 7, 2, 0, 1, 2, 3, 0, 4, 0, 1, 0, 1,
                            4, 0, 4, 0, 2, 1, 3, 5, 0, 1, 1, 7, 0, 2, 8, 9};
static size_t list_length = 32;
static uint8_t out[sizeof list];

/* Says what a step gave; its list is the next one's. */
static void say(const char *name, uint8_t number, size_t length) {
    printf("%s %d length %d:", name, number, (int)length);
    for (size_t i = 0; i < length; i++) {
        printf(" %02x", out[i]);
    }
    printf("\n");
    if (number == 0) {
        memcpy(list, out, length);
        list_length = length;
    }
}

static void split(size_t strip, size_t out_length) {
    size_t length = 1;
    uint8_t number = plates_split_strip(list, list_length, strip, out, out_length, &length);
    say("split", number, length);
}

static void hang(size_t dart, size_t out_length) {
    size_t length = 1;
    uint8_t number = plates_hang_strip(list, list_length, dart, out, out_length, &length);
    say("hang", number, length);
}

static void join(size_t dart, size_t other, size_t out_length) {
    size_t length = 1;
    uint8_t number = plates_join_darts(list, list_length, dart, other, out, out_length, &length);
    say("join", number, length);
}

int main(void) {
    split(2, sizeof out);
    split(0, 36);
    split(0, 37);
    hang(6, sizeof out);
    hang(4, 41);
    hang(4, 42);
    join(0, 1, sizeof out);
    join(6, 0, 46);
    join(6, 0, 47);
    join(0, 4, sizeof out);
    hang(4, sizeof out);
    hang(4, sizeof out);
    list_length--;
    split(0, sizeof out);
    return 0;
}
