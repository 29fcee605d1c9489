/* A write that is stopped by a signal once all bytes stand in the file beside, before it takes its name: the
 * system's fsync is replaced by one that sends the signal. */
#define _XOPEN_SOURCE 700
#include "files.h"

#include <signal.h>
#include <unistd.h>

int fsync(int file)
{
    (void)file;
    raise(SIGTERM);
    return 0;
}

int main(int count, char **words)
{
    if (count == 2) {
        write_file(words[1], "new", 3);
    }
    return 0;
}
