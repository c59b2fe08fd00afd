/* The shape of P1 to text through the header, and back; then refusals. */
#include "plates.h"
#include <stdio.h>
#include <string.h>

static const uint8_t list[] = {1, 0, 2, 0, 7, 2, 0, 1, 2, 3, 0, 4, 0, 1, 0, 1,
                               4, 0, 4, 0, 2, 1, 3, 5, 0, 1, 1};
static uint8_t shape[] = {17, 0, 2, 0, 7, 18, 0, 2, 0, 2, 19, 0, 4, 1, 3, 3, 1,
                          20, 0, 4, 0, 0, 0, 2};
static uint8_t memory[66962];

/* Writes the text to so many bytes and tells how many of them changed. */
static void to_text(size_t list_length, size_t lent) {
    size_t length = 9, changed = 0;
    memset(memory, '.', sizeof memory);
    uint8_t number = plates_write_text(list, list_length, shape, sizeof shape, memory, lent, &length);
    for (size_t place = 0; place < sizeof memory; place++) {
        changed += memory[place] != '.';
    }
    printf("to text %d length %d changed %d\n", number, (int)length, (int)changed);
    printf("%.*s", (int)length, (const char *)memory);
}

static void back(const char *text, size_t lent) {
    uint32_t length = 9, bends = 9;
    uint8_t file[30];
    memset(file, 238, sizeof file);
    uint8_t number = plates_read_text(list, sizeof list, (const uint8_t *)text, strlen(text),
                                      file, lent, &length, &bends);
    printf("back %d length %d bends %d:", number, (int)length, (int)bends);
    for (size_t place = 0; place < 26; place++) {
        printf(" %02x", file[place]);
    }
    printf("\n");
}

int main(void) {
    to_text(sizeof list, sizeof memory);
    to_text(sizeof list, 26);
    to_text(sizeof list, 25);
    to_text(sizeof list - 1, sizeof memory);
    back("1 - 3 2 11 3\n0 - 1 3 00 1\n", 30);
    back("1 - 3 2 11 3\n0 - 1 3 00 1\n", 24);
    back("1 - 3 2 11 3\n0 - 1 3 00 1\n", 23);
    back("1 - 3 2 11 3\n0 - 1 3 00 1", 30);
    back("1 - 3 2 10 3\n0 - 1 3 10 1\n", 30);
    back("0 - 1 3 00 1\n1 - 3 2 11 3\n", 30);
    back("", 0);
    shape[9] = 4, shape[20] = 1, shape[21] = 1;
    to_text(sizeof list, 0);
    return 0;
}
