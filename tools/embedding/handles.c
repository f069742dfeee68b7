/* Goes through the statuses of the library. It ends with the number of the line where something is not as it must be. */
#include "ynl.h"
#include <stdio.h>
#include <string.h>

#define WANT(fact) \
    if (!(fact)) { \
        fprintf(stderr, "%s:%d: not so: %s\n", __FILE__, __LINE__, #fact); \
        return 1; \
    }

static const char CONFIG[] =
    "version = 1\n[[label]]\nname = \"gpu\"\n[[queue]]\npath = \"root.eng\"\ncapacity = 100\n"
    "accessible-node-labels = \"*\"\n[queue.label.gpu]\ncapacity = 100\n";
static const char REGISTER[] = "{\"event\":\"register\",\"label\":\"gpu\",\"memory\":10000,\"node\":\"g1\",\"vcores\":10}";
static const char SUBMIT[] =
    "{\"app\":\"j1\",\"event\":\"submit\",\"label\":\"gpu\",\"memory\":1000,\"queue\":\"root.eng\",\"user\":\"ann\",\"vcores\":1}";
static const char HEARTBEAT[] = "{\"event\":\"heartbeat\",\"node\":\"g1\"}";
static const char MASTER[] =
    "{\"placed\":[{\"app\":\"j1\",\"id\":\"gpu#2\",\"memory\":1000,\"node\":\"g1\",\"tenant\":\"eng\",\"vcores\":1,"
    "\"what\":\"master\"}],\"reply\":\"placed\"}";
static const char NOTHING[] = "{\"placed\":[],\"reply\":\"placed\"}";

static uint32_t open_by(ynl *cluster, const char *config) { return ynl_open(cluster, config, strlen(config)); }

static uint32_t open_seeded(ynl *cluster, const char *config, const char *seed) {
    return ynl_open_seeded(cluster, config, strlen(config), seed, strlen(seed));
}

static uint32_t apply(ynl *cluster, const char *line) { return ynl_apply(cluster, line, strlen(line)); }

/* Whether the text is just this one. */
static int says(ynl *cluster, const char *wanted) {
    char text[4096];
    size_t length = 0;
    return ynl_reply(cluster, text, sizeof text, &length) == YNL_DONE && length == strlen(wanted) && !memcmp(text, wanted, length);
}

static int statuses(void) {
    ynl a = YNL_INIT, b = YNL_INIT;
    char small[4] = "abc";
    size_t length = 0;
    /* A closed handle answers nothing. */
    WANT(apply(&a, REGISTER) == YNL_CLOSED && ynl_containers(&a, "gpu", 3) == YNL_CLOSED && ynl_reply(&a, small, 3, &length) == YNL_CLOSED)
    /* One that was opened in vain has the fault, and no cluster. */
    WANT(open_by(&a, "version = 3") == YNL_NO_CONFIG && says(&a, "ynl: config: version"))
    WANT(apply(&a, REGISTER) == YNL_CLOSED && says(&a, "ynl: config: version"))
    WANT(open_by(&a, CONFIG) == YNL_DONE && says(&a, "") && open_by(&b, CONFIG) == YNL_DONE)
    WANT(apply(&a, REGISTER) == YNL_DONE && says(&a, "{\"reply\":\"done\"}"))
    WANT(apply(&a, SUBMIT) == YNL_DONE && says(&a, "{\"reply\":\"done\"}"))
    /* Neither a fault nor a configuration that is none changes the cluster. */
    WANT(apply(&a, "no event") == YNL_NO_EVENT && says(&a, "{\"fault\":\"syntax\",\"line\":3}"))
    WANT(open_by(&a, "") == YNL_NO_CONFIG && says(&a, "ynl: config: missing-key"))
    WANT(ynl_containers(&a, "a b", 3) == YNL_NO_LABEL && ynl_containers(&a, "\xff", 1) == YNL_NO_LABEL)
    /* A block that is too small is as before, and the text is there for the next one. */
    WANT(apply(&a, HEARTBEAT) == YNL_DONE)
    WANT(ynl_reply(&a, small, 3, &length) == YNL_NO_ROOM && length == strlen(MASTER) && !strcmp(small, "abc"))
    WANT(says(&a, MASTER))
    WANT(ynl_containers(&a, "gpu", 3) == YNL_DONE && says(&a, MASTER))
    WANT(ynl_containers(&a, "", 0) == YNL_DONE && says(&a, NOTHING))
    /* The other cluster knows nothing of all this. */
    WANT(apply(&b, HEARTBEAT) == YNL_DONE && says(&b, "{\"refused\":\"NoSuchNode\",\"reply\":\"refused\"}"))
    /* Opened again, with bytes for a seed or with few or none, the handle has a cluster at its beginning. */
    WANT(open_seeded(&a, CONFIG, "sixteen bytes 16") == YNL_DONE && says(&a, "") && apply(&a, REGISTER) == YNL_DONE)
    WANT(apply(&a, SUBMIT) == YNL_DONE && apply(&a, SUBMIT) == YNL_DONE && says(&a, "{\"refused\":\"NameUsed\",\"reply\":\"refused\"}"))
    WANT(open_seeded(&a, "version = 3", "seed") == YNL_NO_CONFIG && says(&a, "ynl: config: version") && apply(&a, REGISTER) == YNL_DONE)
    WANT(open_seeded(&a, CONFIG, "") == YNL_DONE && apply(&a, "") == YNL_NO_EVENT && says(&a, "{\"fault\":\"syntax\",\"line\":1}"))
    ynl_close(&a);
    ynl_close(&a);
    ynl_close(&b);
    WANT(a.at == NULL && apply(&a, REGISTER) == YNL_CLOSED && ynl_version() == 1)
    return 0;
}

int main(void) { return statuses(); }
