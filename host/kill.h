/* Stands before example.c in the hosts that `make restart` kills: STEP() kills the host at step KILL_AT. Before that it does
   to the files what a power cut may do: with CUT=cut-data what was written and not synced is lost, with CUT=cut-rename also
   a rename whose directory was not synced. */
#define _POSIX_C_SOURCE 200809L
#include <fcntl.h>
#include <signal.h>
#include <stdio.h>
#include <stdlib.h>
#include <string.h>
#include <sys/stat.h>
#include <unistd.h>

static int unsynced = -1; /* a descriptor of the file that was written and not synced */

/* of a rename whose directory was not synced: the file that was there before it, and the name */
static char replaced[4096], replaced_by[4096];

static ssize_t kill_write(int f, const void *text, size_t n) {
    unsynced = dup(f);
    return write(f, text, n);
}

static int kill_fsync(int f) {
    struct stat s;
    if (fstat(f, &s) != 0) return -1;
    if (S_ISDIR(s.st_mode)) replaced_by[0] = 0;
    else unsynced = -1;
    return fsync(f);
}

static int kill_rename(const char *from, const char *to) {
    snprintf(replaced_by, sizeof replaced_by, "%s", to);
    snprintf(replaced, sizeof replaced, "%.4000s.old", to);
    unlink(replaced);
    if (link(to, replaced) != 0) replaced[0] = 0;
    return rename(from, to);
}

static void kill_step(void) {
    static long steps;
    const char *at = getenv("KILL_AT"), *cut = getenv("CUT");
    if (!at || !cut || ++steps != atol(at)) return;
    if (strncmp(cut, "cut", 3) == 0 && unsynced >= 0 && ftruncate(unsynced, 0) != 0) abort();
    if (strcmp(cut, "cut-rename") == 0 && replaced_by[0])
        if ((replaced[0] ? rename(replaced, replaced_by) : unlink(replaced_by)) != 0) abort();
    raise(SIGKILL);
}

#define write kill_write
#define fsync kill_fsync
#define rename kill_rename
#define STEP() kill_step()
