/* Answers the events of standard input as `ynl run` does: ./run CONFIG < EVENTS */
#include "ynl.h"
#include <stdio.h>
#include <string.h>

static char text[1 << 20];

static void show(ynl *cluster, FILE *out) {
    size_t length;
    if (ynl_reply(cluster, text, sizeof text, &length) == YNL_DONE)
        fprintf(out, "%.*s\n", (int)length, text);
}

int main(int count, char **words) {
    ynl cluster = YNL_INIT;
    FILE *config = count == 2 ? fopen(words[1], "rb") : NULL;
    if (!config) return 2;
    uint32_t status = ynl_open(&cluster, text, fread(text, 1, sizeof text, config));
    if (status != YNL_DONE) show(&cluster, stderr);
    while (status == YNL_DONE && fgets(text, sizeof text, stdin)) {
        status = ynl_apply(&cluster, text, strcspn(text, "\n"));
        show(&cluster, stdout);
    }
    ynl_close(&cluster);
    return status != YNL_DONE;
}
