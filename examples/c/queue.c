/* Who waits behind each frame of a trace, the earliest first: queue monitor.txt trace.txt */
#include <damsonyet.h>
#include <stdio.h>
#include <stdlib.h>

static size_t bytes_of(const char *path, uint8_t *into, size_t most) {
    FILE *from = fopen(path, "rb");
    if (from == NULL) {
        perror(path);
        exit(2);
    }
    size_t length = fread(into, 1, most, from);
    fclose(from);
    return length;
}

/* A place below 16 is that of a waiter, and its turn is how many began to wait before it. */
static void print_queue(const char *when, const uint8_t *places, const uint8_t *turns) {
    printf("%s:", when);
    for (int turn = 0; turn < DAMSONYET_THREADS; turn++)
        for (int thread = 0; thread < DAMSONYET_THREADS; thread++)
            if (places[thread] < DAMSONYET_REGIONS && turns[thread] == turn)
                printf(" %d", thread);
    printf("\n");
}

int main(int argc, char **argv) {
    static uint8_t file[DAMSONYET_FILE_BYTES + 1], trace[65536], points[DAMSONYET_POINTS_BYTES(sizeof trace)];
    if (argc != 3) {
        fprintf(stderr, "usage: queue monitor.txt trace.txt\n");
        return 2;
    }
    size_t file_len = bytes_of(argv[1], file, sizeof file), trace_len = bytes_of(argv[2], trace, sizeof trace);
    size_t start = damsonyet_start_state(file, file_len);
    damsonyet_pointing told = damsonyet_points(file, file_len, trace, trace_len, start, points, sizeof points);
    for (size_t k = 0; k < told.count; k++) {
        char when[32] = "start";
        if (k > 0)
            snprintf(when, sizeof when, "frame %zu", k - 1);
        print_queue(when, points + k * DAMSONYET_POINT_BYTES + 6, points + k * DAMSONYET_POINT_BYTES + 33);
    }
    damsonyet_running run = damsonyet_run(file, file_len, trace, trace_len, start, true);
    if (run.answer.number != 0) {
        printf("refused, %d at %zu, %zu\n", run.answer.number, run.answer.first, run.answer.second);
        return 1;
    }
    print_queue("end", run.places, run.turns);
    return 0;
}
