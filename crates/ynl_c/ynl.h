/* ynl: a cluster of the capacity scheduler inside a program. docs/EMBEDDING.md says more of it.

   A handle has a cluster, once it is opened. One caller at a time uses a handle: calls on it follow each other in one
   thread, or a lock, a thread's start or its join orders them. Calls on several handles need no lock.

   Texts are bytes with their number and need no 0 at the end. A pointer is never NULL, also where the number is 0. Nothing
   that a call was given is read or written once it has returned. No call may come from a signal handler, or from the
   forked child of a process with threads. */

#ifndef YNL_H
#define YNL_H

#include <stddef.h>
#include <stdint.h>

#ifdef __cplusplus
extern "C" {
#endif

/* What a caller holds. It begins as YNL_INIT and ends with ynl_close. Its field belongs to the library, and an open one is
   never copied. */
typedef struct ynl {
    void *at;
} ynl;

#define YNL_INIT {0}

/* How a call ended. Only YNL_DONE changes a cluster. */
enum {
    YNL_DONE = 0,
    YNL_NO_MEMORY = 1, /* memory was refused: the cluster is as it was */
    YNL_NO_CONFIG = 2, /* the text is no configuration */
    YNL_NO_EVENT = 3,  /* the line is no event: the cluster is as it was */
    YNL_NO_ROOM = 4,   /* the block is too small for the text */
    YNL_CLOSED = 5,    /* the handle has no cluster, or for ynl_reply nothing at all */
    YNL_NO_LABEL = 6   /* the text is no label */
};

/* Opens a cluster of the configuration that a text means; the text is that of a file that `ynl run --config` takes. A
   cluster that the handle had is let go. Where the text is no configuration ynl_reply has the line that the program writes
   of it, a cluster that was there stays, and one that was never opened is to be closed all the same.
   YNL_DONE, YNL_NO_CONFIG, YNL_NO_MEMORY. */
uint32_t ynl_open(ynl *handle, const char *config, size_t config_length);

/* The same, for names of applications that strangers choose: they are hashed with a seed, which is made of the first 16 of
   these bytes. With bytes that nobody can guess, as those of getentropy, no choice of names makes look-ups slow. ynl_open
   hashes with a seed that everybody can know. No reply depends on it.
   YNL_DONE, YNL_NO_CONFIG, YNL_NO_MEMORY. */
uint32_t ynl_open_seeded(ynl *handle, const char *config, size_t config_length, const char *seed, size_t seed_length);

/* Takes the event that a line is, without its newline; blank lines are the caller's to leave out. ynl_reply then has the
   reply, or of a line that is no event the line that the program writes of it, where the number is that of the calls since
   ynl_open. The cluster goes on after such a line. With YNL_NO_MEMORY there is no text, and the call can be made again.
   YNL_DONE, YNL_NO_EVENT, YNL_NO_MEMORY, YNL_CLOSED. */
uint32_t ynl_apply(ynl *handle, const char *line, size_t line_length);

/* Lists the containers of the partition of a label, which is empty for DEFAULT. ynl_reply then has them in the form in
   which a heartbeat is answered. Nothing changes.
   YNL_DONE, YNL_NO_LABEL, YNL_NO_MEMORY, YNL_CLOSED. */
uint32_t ynl_containers(ynl *handle, const char *label, size_t label_length);

/* Copies the text of what the last call came to to the front of a block of `room` bytes, without a newline or a 0, and
   puts its length into *length. With YNL_NO_ROOM the length is there too, and the block is as it was. The text can be
   copied as often as wanted, until the next of the calls above. With any other status *length is not to be read.
   YNL_DONE, YNL_NO_ROOM, YNL_NO_MEMORY, YNL_CLOSED. */
uint32_t ynl_reply(ynl *handle, char *block, size_t room, size_t *length);

/* Lets go all that the handle has. It can be opened again, and closing it twice does nothing. */
void ynl_close(ynl *handle);

/* The version of these calls: 1. */
uint32_t ynl_version(void);

#ifdef __cplusplus
}
#endif

#endif
