/* Which tries of a monitor file are chosen, and why the others are not: guesses < monitor.txt */
#include <damsonyet.h>
#include <stdio.h>

int main(void) {
    static uint8_t file[DAMSONYET_FILE_BYTES + 1];
    size_t length = fread(file, 1, sizeof file, stdin);
    damsonyet_fates fates = damsonyet_fates_of(file, length);
    if (!fates.known) {
        printf("refused, %d at %zu, %zu\n", fates.answer.number, fates.answer.first, fates.answer.second);
        return 1;
    }
    damsonyet_outline outline = damsonyet_outline_of(file, length);
    for (size_t i = 0; i < fates.tries; i++) {
        damsonyet_span tried = outline.tried[i];
        printf("try%.*s: ", (int)(tried.to - tried.from), (const char *)file + tried.from);
        if (fates.chosen >> i & 1) {
            printf("chosen\n");
        } else if (fates.passes[i] == 0) {
            printf("false at the start values\n");
        } else {
            damsonyet_state from = damsonyet_state_at(file, length, fates.states[i]);
            printf("broken in pass %d by region %d, which leads from state %d to state %d\n", fates.passes[i], fates.regions[i],
                   fates.states[i], from.after[fates.regions[i]]);
        }
    }
    return fates.answer.number == 0 ? 0 : 1;
}
