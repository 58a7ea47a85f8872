// Runs a command, and says what it took with all that it started: the microseconds of the processor and of the clock,
// and the kilobytes at the peak, of the largest process. What is started from here begins with this program's memory,
// which is small; what Python starts begins with Python's.
//
//   cc -O2 -o timed bench/timed.c && ./timed FILE SECONDS COMMAND [WORD ..]
//
// FILE gets the three numbers, and the status is the command's. One that takes longer than SECONDS is stopped, and the
// status is 124.
#include <signal.h>
#include <stdio.h>
#include <stdlib.h>
#include <sys/resource.h>
#include <sys/wait.h>
#include <time.h>
#include <unistd.h>

static pid_t child;
static volatile sig_atomic_t is_late;

static void stop(int number) {
    (void)number;
    is_late = 1;
    kill(-child, SIGKILL);
}

static long long microseconds(struct timeval time) {
    return time.tv_sec * 1000000LL + time.tv_usec;
}

static long long clock_now(void) {
    struct timespec now;
    clock_gettime(CLOCK_MONOTONIC, &now);
    return now.tv_sec * 1000000LL + now.tv_nsec / 1000;
}

// Starts the command as the head of a process group, so that it is stopped with all that it started.
static void start(char **command) {
    child = fork();
    if (child == 0) {
        setpgid(0, 0);
        execvp(command[0], command);
        _exit(127);
    }
}

int main(int count, char **words) {
    if (count < 4)
        return 2;
    FILE *file = fopen(words[1], "w");
    if (!file)
        return 2;
    long long begin = clock_now();
    start(words + 3);
    if (child < 0)
        return 2;
    setpgid(child, child);
    signal(SIGALRM, stop);
    alarm((unsigned)atoi(words[2]));
    int status = 0;
    struct rusage usage;
    while (wait4(child, &status, 0, &usage) < 0)
        ;
    long long processor = microseconds(usage.ru_utime) + microseconds(usage.ru_stime);
    fprintf(file, "%lld %lld %ld\n", processor, clock_now() - begin, usage.ru_maxrss);
    fclose(file);
    return is_late ? 124 : WIFEXITED(status) ? WEXITSTATUS(status) : 125;
}
