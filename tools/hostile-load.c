/* Goes between the second program and the library's load: reference/src/hostile/loads.rs says what is read and written. File and buffer are as
 * long as they are said to be, so that a memory checker sees a byte too far. */
#include <damsonyet.h>
#include <stdio.h>
#include <stdlib.h>
#include <string.h>

static uint64_t number(const uint8_t *bytes, size_t count) {
    uint64_t number = 0;
    while (count > 0) {
        number = 256 * number + bytes[--count];
    }
    return number;
}

static void put(uint64_t number) {
    for (int k = 0; k < 8; k++) {
        putchar((int)(number >> (8 * k) & 255));
    }
}

int main(void) {
    uint8_t head[28];
    while (fread(head, 1, sizeof head, stdin) == sizeof head) {
        size_t length = number(head, 4), room = number(head + 24, 4);
        /* A pointer must not be null, also where the length is 0. */
        uint8_t *file = malloc(length + (length == 0)), *out = malloc(room + (room == 0));
        if (file == NULL || out == NULL || fread(file, 1, length, stdin) != length) {
            fputs("hostile-load: no memory, or no file\n", stderr);
            return 2;
        }
        memset(out, 0xA5, room);
        damsonyet_made made =
            damsonyet_load(file, length, (uint32_t)number(head + 4, 4), number(head + 8, 8), number(head + 16, 8), out, room);
        putchar(made.answer.number);
        put(made.answer.first);
        put(made.answer.second);
        put(made.count);
        fwrite(out, 1, room, stdout);
        fflush(stdout);
        free(file);
        free(out);
    }
    return 0;
}
