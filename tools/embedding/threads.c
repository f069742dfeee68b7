/* Four threads, each with a node of its own, call one cluster behind a lock of the program's. */
#include "ynl.h"
#include <pthread.h>
#include <stdio.h>
#include <string.h>

enum { THREADS = 4, CALLS = 20000 };

static const char CONFIG[] =
    "version = 1\n[[label]]\nname = \"gpu\"\n[[queue]]\npath = \"root.eng\"\ncapacity = 100\n"
    "accessible-node-labels = \"*\"\n[queue.label.gpu]\ncapacity = 100\n";

static pthread_mutex_t lock = PTHREAD_MUTEX_INITIALIZER;
static ynl cluster = YNL_INIT;
static long right;

/* Makes a call, and counts it where its reply is the one that is wanted. */
static void call(const char *line, const char *wanted) {
    char text[4096];
    size_t length;
    pthread_mutex_lock(&lock);
    if (ynl_apply(&cluster, line, strlen(line)) == YNL_DONE && ynl_reply(&cluster, text, sizeof text, &length) == YNL_DONE)
        right += length == strlen(wanted) && !memcmp(text, wanted, length);
    pthread_mutex_unlock(&lock);
}

static void *work(void *node) {
    char line[200];
    snprintf(line, sizeof line, "{\"event\":\"register\",\"label\":\"gpu\",\"memory\":10000,\"node\":\"%s\",\"vcores\":10}", (char *)node);
    call(line, "{\"reply\":\"done\"}");
    snprintf(line, sizeof line, "{\"event\":\"heartbeat\",\"node\":\"%s\"}", (char *)node);
    for (int i = 1; i < CALLS; i++) call(line, "{\"placed\":[],\"reply\":\"placed\"}");
    return NULL;
}

int main(void) {
    char *nodes[THREADS] = {"g1", "g2", "g3", "g4"};
    pthread_t threads[THREADS];
    if (ynl_open(&cluster, CONFIG, strlen(CONFIG)) != YNL_DONE) return 1;
    for (int i = 0; i < THREADS; i++) pthread_create(&threads[i], NULL, work, nodes[i]);
    for (int i = 0; i < THREADS; i++) pthread_join(threads[i], NULL);
    ynl_close(&cluster);
    if (right != (long)THREADS * CALLS) return 1;
    return 0;
}
