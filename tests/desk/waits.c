/* Progress over two alarms: tests/desk/terminal.py looks at the line. In a pipe there is no alarm. */
#define _XOPEN_SOURCE 700
#include "progress.h"

#include <unistd.h>

int main(void)
{
    begin_progress("waiting");
    if (isatty(STDERR_FILENO) == 1) {
        pause();
        pause();
    }
    end_progress();
    return 0;
}
