/* Refuses memory once in each run over the events of standard input, one allocation later each time:
   ./memory CONFIG QUESTIONS [LABEL..] < EVENTS
   A second cluster takes the same events and is refused nothing. Where an event is refused memory, both must reply alike to
   all questions, which are events too, and have the same containers on DEFAULT and on these partitions. Then the event is
   given again, and both must reply alike to it. Link with -Wl,--wrap=malloc,--wrap=realloc. */
#include "ynl.h"
#include <stdio.h>
#include <string.h>

enum { SIZE = 1 << 16 };

void *__real_malloc(size_t size);
void *__real_realloc(void *block, size_t size);

/* The cluster that may be refused memory, and the one that never is. */
static ynl cluster, other;

/* How many allocations of the first come before the one that is refused; below 0 there is none. */
static long left = -1;
static int is_first;

static int is_refused(void) { return is_first && left >= 0 && left-- == 0; }

/* The handle, of which the next call is. */
static ynl *on(ynl *handle) {
    is_first = handle == &cluster;
    return handle;
}

void *__wrap_malloc(size_t size) { return is_refused() ? NULL : __real_malloc(size); }

void *__wrap_realloc(void *block, size_t size) { return is_refused() ? NULL : __real_realloc(block, size); }

static char config[SIZE], events[SIZE], questions[SIZE];
static size_t config_length;
static char **labels;

static uint32_t apply(ynl *handle, const char *line) { return ynl_apply(on(handle), line, strcspn(line, "\n")); }

static const char *next(const char *line) { return strchr(line, '\n') + 1; }

/* The length of the text of a handle's last call, or 0 where there is none. */
static size_t text_of(ynl *handle, char *text) {
    size_t length;
    uint32_t status;
    while ((status = ynl_reply(on(handle), text, SIZE, &length)) == YNL_NO_MEMORY) {}
    return status == YNL_DONE ? length : 0;
}

/* Whether the last calls on both came to the same text. */
static int say_the_same(void) {
    static char one[SIZE], another[SIZE];
    size_t length = text_of(&cluster, one);
    return length && length == text_of(&other, another) && !memcmp(one, another, length);
}

static int lists(ynl *handle, const char *label) { return ynl_containers(on(handle), label, strlen(label)) == YNL_DONE; }

static int have_the_same_containers(const char *label) { return lists(&cluster, label) && lists(&other, label) && say_the_same(); }

static int are_alike(void) {
    for (const char *line = questions; *line; line = next(line))
        if (apply(&cluster, line) != YNL_DONE || apply(&other, line) != YNL_DONE || !say_the_same()) return 0;
    for (char **label = labels; *label; label++)
        if (!have_the_same_containers(*label)) return 0;
    return have_the_same_containers("");
}

/* Whether the event is answered as it must be. */
static int is_answered(const char *line) {
    uint32_t status;
    while ((status = apply(&cluster, line)) == YNL_NO_MEMORY)
        if (!are_alike()) return 0;
    return status == YNL_DONE && apply(&other, line) == YNL_DONE && say_the_same();
}

static int run(long refused) {
    const char *line = events;
    left = refused;
    if (ynl_open(on(&other), config, config_length) != YNL_DONE) return 0;
    while (ynl_open(on(&cluster), config, config_length) == YNL_NO_MEMORY) {}
    while (*line && is_answered(line)) line = next(line);
    ynl_close(&cluster);
    ynl_close(&other);
    return !*line;
}

static size_t read_all(FILE *file, char *text) { return file ? fread(text, 1, SIZE - 1, file) : 0; }

int main(int count, char **words) {
    if (count < 3) return 2;
    labels = words + 3;
    config_length = read_all(fopen(words[1], "rb"), config);
    if (!read_all(fopen(words[2], "rb"), questions) || !read_all(stdin, events)) return 2;
    for (long refused = 0;; refused++) {
        if (!run(refused)) {
            fprintf(stderr, "memory.c: another reply after %ld allocations\n", refused);
            return 1;
        }
        if (left >= 0) {
            printf("memory.c: each of %ld allocations was refused\n", refused);
            return 0;
        }
    }
}
