/* same.c: calls the library as a list of lines says, so that test.sh can compare what it gives with what the program does.
 *
 *     same LIST OUT THREADS
 *
 * A line of LIST is what stands behind `sfm`: `solve FILE`, `check FILE ANSWER`, `weigh FILE SIZES`, `weighed FILE SIZES ANSWER`,
 * `ask FILE PINS`, `level FILE`, `edit FILE EDITS`, `meet LEFT RIGHT` or `met LEFT RIGHT ANSWER`.
 * The text of line N goes to the file OUT/N, and the code to OUT/N.code. The lines are dealt to the threads, each of which has a
 * stack of 128 KiB.
 */
#include <pthread.h>
#include <sfm.h>
#include <stdio.h>
#include <string.h>

enum { MOST_LINES = 100000, STACK = 128 * 1024 };

static char *lines[MOST_LINES];
static int count, threads;
static const char *out_folder;

static void die(const char *what) {
    fprintf(stderr, "same: %s\n", what);
    exit(3);
}

struct bytes {
    uint8_t *at;
    size_t len;
};

/* A file whole, in a block that ends where it ends, so that a sanitizer sees a read behind it. */
static struct bytes read_file(const char *name) {
    FILE *file = fopen(name, "rb");
    if (!file)
        die(name);
    if (fseek(file, 0, SEEK_END) != 0)
        die(name);
    long len = ftell(file);
    rewind(file);
    uint8_t *at = malloc(len > 0 ? (size_t)len : 1);
    if (!at || fread(at, 1, (size_t)len, file) != (size_t)len)
        die(name);
    fclose(file);
    return (struct bytes){at, (size_t)len};
}

static void write_file(const char *ending, int number, const void *at, size_t len) {
    char name[4096];
    snprintf(name, sizeof name, "%s/%d%s", out_folder, number, ending);
    FILE *file = fopen(name, "wb");
    if (!file || fwrite(at, 1, len, file) != len || fclose(file) != 0)
        die(name);
}

/* Runs on a small stack, so what is large stands elsewhere. */
static void call_line(int number) {
    char *words[5] = {0}, *rest = lines[number], *saved = NULL;
    int given = 0;
    for (char *word; given < 5 && (word = strtok_r(rest, " \n", &saved)); rest = NULL)
        words[given++] = word;
    struct bytes text[3];
    for (int i = 1; i < given; i++)
        text[i - 1] = read_file(words[i]);
    struct sfm_text out = SFM_TEXT;
    uint32_t code;
    if (given == 2 && !strcmp(words[0], "solve"))
        code = sfm_solve(text[0].at, text[0].len, &out);
    else if (given == 2 && !strcmp(words[0], "level"))
        code = sfm_level(text[0].at, text[0].len, &out);
    else if (given == 3 && !strcmp(words[0], "ask"))
        code = sfm_ask(text[0].at, text[0].len, text[1].at, text[1].len, &out);
    else if (given == 3 && !strcmp(words[0], "edit"))
        code = sfm_edit(text[0].at, text[0].len, text[1].at, text[1].len, &out);
    else if (given == 3 && !strcmp(words[0], "check"))
        code = sfm_check(text[0].at, text[0].len, text[1].at, text[1].len, &out);
    else if (given == 3 && !strcmp(words[0], "weigh"))
        code = sfm_weigh(text[0].at, text[0].len, text[1].at, text[1].len, &out);
    else if (given == 4 && !strcmp(words[0], "weighed"))
        code = sfm_weighed(text[0].at, text[0].len, text[1].at, text[1].len, text[2].at, text[2].len, &out);
    else if (given == 3 && !strcmp(words[0], "meet"))
        code = sfm_meet(text[0].at, text[0].len, text[1].at, text[1].len, &out);
    else if (given == 4 && !strcmp(words[0], "met"))
        code = sfm_met(text[0].at, text[0].len, text[1].at, text[1].len, text[2].at, text[2].len, &out);
    else
        die("a line is no call");
    for (int i = 1; i < given; i++)
        free(text[i - 1].at);
    char digits[16];
    write_file("", number + 1, out.at, out.len);
    write_file(".code", number + 1, digits, (size_t)snprintf(digits, sizeof digits, "%d\n", (int)code));
    sfm_free(&out);
}

static void *call_lines(void *first) {
    for (int number = (int)(intptr_t)first; number < count; number += threads)
        call_line(number);
    return NULL;
}

int main(int argc, char **argv) {
    if (argc != 4)
        die("same LIST OUT THREADS");
    out_folder = argv[2];
    threads = atoi(argv[3]);
    struct bytes list = read_file(argv[1]);
    char *text = malloc(list.len + 1), *saved = NULL;
    if (!text || threads < 1 || threads > 64)
        die("memory, or threads");
    memcpy(text, list.at, list.len);
    text[list.len] = 0;
    for (char *line = strtok_r(text, "\n", &saved); line && count < MOST_LINES; line = strtok_r(NULL, "\n", &saved))
        lines[count++] = line;
    pthread_t thread[64];
    pthread_attr_t attributes;
    if (pthread_attr_init(&attributes) || pthread_attr_setstacksize(&attributes, STACK))
        die("the stack of a thread");
    for (int i = 0; i < threads; i++)
        if (pthread_create(&thread[i], &attributes, call_lines, (void *)(intptr_t)i))
            die("a thread");
    for (int i = 0; i < threads; i++)
        pthread_join(thread[i], NULL);
    pthread_attr_destroy(&attributes);
    free(text);
    free(list.at);
    return 0;
}
