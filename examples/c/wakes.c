/* Which regions of a monitor file wake which guards: wakes < monitor.txt */
#include <damsonyet.h>
#include <stdio.h>

int main(void) {
    static uint8_t file[DAMSONYET_FILE_BYTES + 1], table[DAMSONYET_OUTPUT_BYTES];
    size_t length = fread(file, 1, sizeof file, stdin);
    damsonyet_placing placing = damsonyet_place(file, length, table, sizeof table);
    if (placing.answer.number != 0) {
        printf("refused, %d at %zu, %zu\n", placing.answer.number, placing.answer.first, placing.answer.second);
        return 1;
    }
    damsonyet_outline outline = damsonyet_outline_of(file, length);
    for (size_t r = 0; r < outline.regions; r++) {
        damsonyet_span guard = outline.region[r].guard;
        printf("region %zu waits until %.*s\n", r, (int)(guard.to - guard.from), (const char *)file + guard.from);
    }
    printf("region and guard: %d pairs touched\n", placing.pairs);
    printf("%.*s", (int)placing.length, (const char *)table);
    return 0;
}
