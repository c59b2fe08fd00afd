/* A book of three entries through the header: current revisions. */
#include "plates.h"
#include <stdio.h>

static const uint8_t book[] = {0, 7, 0, 1, 0, 0, 0, 9, 1, 0, 0, 0, 0, 7, 0, 5, 0, 1};

static void show(size_t length, uint16_t model) {
    uint16_t revision = 1;
    uint8_t number = plates_current_revision(book, length, model, &revision);
    printf("model %d: %d revision %d\n", model, number, revision);
}

int main(void) {
    show(sizeof book, 7);
    show(sizeof book, 9);
    show(sizeof book, 8);
    show(sizeof book - 1, 9);
    return 0;
}
