/* The towns of README.md in C: solve them, judge the answer, and see what is said of an answer that was cut off and of a text with
 * a fault.
 *
 *     cc towns.c $(pkg-config --cflags --libs sfm) -o towns
 */
#include <sfm.h>
#include <stdio.h>
#include <string.h>

static const char TOWNS[] =
    "sfm 1\n"
    "ground ash birch cedar dale\n"
    "weight ash:-5 birch:-5 cedar:-3 dale:-1\n"
    "cover 7 ash birch\n"
    "cover 4 cedar dale\n"
    "end\n";

static const uint8_t *bytes(const char *text) {
    return (const uint8_t *)text;
}

/* Prints the first lines of a text. */
static void print_lines(const struct sfm_text *text, int lines) {
    for (size_t i = 0; i < text->len && lines > 0; i++) {
        putchar(text->at[i]);
        lines -= text->at[i] == '\n';
    }
}

int main(void) {
    struct sfm_text answer = SFM_TEXT, verdict = SFM_TEXT;
    size_t len = strlen(TOWNS);

    if (sfm_solve(bytes(TOWNS), len, &answer) != SFM_DONE)
        return 1;
    print_lines(&answer, 6);

    if (sfm_check(bytes(TOWNS), len, answer.at, answer.len, &verdict) == SFM_DONE)
        print_lines(&verdict, 1);
    sfm_free(&verdict);

    if (sfm_check(bytes(TOWNS), len, answer.at, answer.len - 1, &verdict) == SFM_INVALID)
        print_lines(&verdict, 1);
    sfm_free(&verdict);
    sfm_free(&answer);

    if (sfm_solve(bytes("sfm 1\nground ash ash\nend\n"), 25, &answer) == SFM_REFUSED)
        print_lines(&answer, 1);
    sfm_free(&answer);
    return 0;
}
