/* An oracle by the archive: the table 08 of two variables (f(x) = x1 and x2) is built, folded, judged against its own
 * table and against another, and listed; then two calls that are refused. examples/run builds and runs it. */
#include "phg.h"

int printf(const char *, ...); /* instead of <stdio.h>, which the kit's compiler does not have */

static int refused(const char *what, const uint64_t answer[6]) {
    if (answer[0] == 0) return 0;
    printf("%s: refused %d, side %d, position %d, reason %d\n", what, (int)answer[0], (int)answer[1], (int)answer[2],
           (int)answer[3]);
    return 1;
}

static void tell(const char *table, const uint64_t answer[6]) {
    if (answer[1] == 0) printf("judged against %s: same\n", table);
    else
        printf("judged against %s: different at state %d, ends %d and %d, phase %d\n", table, (int)answer[2],
               (int)answer[3], (int)answer[4], (int)answer[5]);
}

int main(void) {
    const uint8_t and_table[1] = {0x08}, xor_table[1] = {0x06};
    uint8_t built[64], folded[64], text[2048];
    uint16_t work[8];
    uint64_t answer[6];

    phg_build(2, and_table, 1, built, sizeof built, answer);
    if (refused("build", answer)) return 1;
    size_t built_len = answer[1];
    printf("built: %d bytes\n", (int)built_len);

    phg_fold(built, built_len, folded, sizeof folded, answer);
    if (refused("fold", answer)) return 1;
    size_t folded_len = answer[1];
    printf("folded: %d bytes, score %d to %d\n", (int)folded_len, (int)answer[2], (int)answer[3]);

    phg_judge(2, and_table, 1, folded, folded_len, work, 8, answer);
    if (refused("judge", answer)) return 1;
    tell("08", answer);
    phg_judge(2, xor_table, 1, folded, folded_len, work, 8, answer);
    if (refused("judge", answer)) return 1;
    tell("06", answer);

    phg_list(folded, folded_len, 1, text, sizeof text, answer);
    if (refused("list", answer)) return 1;
    printf("listed: %d bytes\n%.*s", (int)answer[1], (int)answer[1], (const char *)text);

    folded[folded_len - 2] = folded[folded_len - 3]; /* the last CNOT's target is now its control */
    phg_read(folded, folded_len, answer);
    if (!refused("read of equal wires", answer) || answer[3] != PHG_REASON_EQUAL) return 1;

    phg_build(9, and_table, 1, built, sizeof built, answer);
    return refused("build of 9 variables", answer) ? 0 : 1;
}
