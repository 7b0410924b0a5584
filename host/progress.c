#include "progress.h"

#include <errno.h>
#include <signal.h>
#include <stdio.h>
#include <string.h>
#include <sys/time.h>
#include <unistd.h>

static const char *volatile stage;
static volatile unsigned seconds;

/* Writes only what a signal handler may: no stdio. */
static void show_progress(int signal_number)
{
    char line[96];
    char digits[12];
    size_t at = 0, k = 0, length = strlen(stage);
    unsigned s = ++seconds;
    int saved = errno;
    (void)signal_number;
    line[at++] = '\r';
    memcpy(line + at, stage, length);
    at += length;
    memcpy(line + at, " .. ", 4);
    at += 4;
    do
        digits[k++] = (char)('0' + s % 10);
    while ((s /= 10) != 0);
    while (k != 0)
        line[at++] = digits[--k];
    memcpy(line + at, " s", 2);
    at += 2;
    if (write(STDERR_FILENO, line, at) < 0)
        stage = "";
    errno = saved;
}

void start_progress(const char *what)
{
    static const struct itimerval each_second = { { 1, 0 }, { 1, 0 } };
    struct sigaction action;
    stage = what;
    seconds = 0;
    if (!isatty(STDERR_FILENO))
        return;
    memset(&action, 0, sizeof action);
    action.sa_handler = show_progress;
    action.sa_flags = SA_RESTART;
    sigaction(SIGALRM, &action, NULL);
    setitimer(ITIMER_REAL, &each_second, NULL);
}

void stop_progress(void)
{
    static const struct itimerval never = { { 0, 0 }, { 0, 0 } };
    setitimer(ITIMER_REAL, &never, NULL);
    if (seconds != 0)
        fprintf(stderr, "\r\033[K");
    seconds = 0;
}
