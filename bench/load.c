/* load SEED THREADS WANTED < FILE: the frames that the library's load gives, or its refusal's line. The twin's `load` does the same. */
#include <damsonyet.h>
#include <stdio.h>
#include <stdlib.h>

int main(int argc, char **argv) {
    if (argc != 4) {
        fputs("usage: load SEED THREADS WANTED < FILE\n", stderr);
        return 2;
    }
    static uint8_t file[DAMSONYET_FILE_BYTES + 1];
    size_t length = fread(file, 1, sizeof file, stdin);
    size_t wanted = strtoull(argv[3], NULL, 10), room = DAMSONYET_LOAD_BYTES(wanted);
    uint8_t *lines = calloc(room + 1, 1);
    if (lines == NULL) {
        fputs("load: no memory\n", stderr);
        return 2;
    }
    uint32_t seed = (uint32_t)strtoul(argv[1], NULL, 10);
    damsonyet_made made = damsonyet_load(file, length, seed, strtoull(argv[2], NULL, 10), wanted, lines, room);
    if (made.answer.number != 0) {
        printf("%02X%04zX%04zX\n", made.answer.number, made.answer.first, made.answer.second);
    } else {
        fwrite(lines, 1, DAMSONYET_FRAME_BYTES * made.count, stdout);
    }
    free(lines);
    return 0;
}
