/* A repeatable load of a monitor file, as a trace: load SEED THREADS FRAMES < monitor.txt */
#include <damsonyet.h>
#include <stdio.h>
#include <stdlib.h>

int main(int argc, char **argv) {
    static uint8_t file[DAMSONYET_FILE_BYTES + 1];
    if (argc != 4) {
        fprintf(stderr, "usage: load SEED THREADS FRAMES < monitor.txt\n");
        return 2;
    }
    uint32_t seed = (uint32_t)strtoul(argv[1], NULL, 0);
    size_t threads = strtoul(argv[2], NULL, 10), wanted = strtoul(argv[3], NULL, 10);
    size_t length = fread(file, 1, sizeof file, stdin);
    /* The buffer is by the wanted count. It is never empty: a pointer must not be null. */
    uint8_t *trace = wanted <= SIZE_MAX / DAMSONYET_FRAME_BYTES - 1 ? malloc(DAMSONYET_LOAD_BYTES(wanted + 1)) : NULL;
    if (trace == NULL) {
        fprintf(stderr, "no memory for so many frames\n");
        return 2;
    }
    damsonyet_made made = damsonyet_load(file, length, seed, threads, wanted, trace, DAMSONYET_LOAD_BYTES(wanted));
    if (made.answer.number != 0) {
        fprintf(stderr, "refused, %d at %zu, %zu\n", made.answer.number, made.answer.first, made.answer.second);
        free(trace);
        return 1;
    }
    fwrite(trace, DAMSONYET_FRAME_BYTES, made.count, stdout);
    if (made.count < wanted)
        fprintf(stderr, "a standstill after %zu frames\n", made.count);
    free(trace);
    return 0;
}
