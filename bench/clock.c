/* Runs commands one after the other, so many times over, and prints the least processor time of each, in microseconds, a line for each.
 *
 *   clock TIMES INPUT COMMAND [ARGUMENT ..] [-- COMMAND [ARGUMENT ..]]..
 *
 * Each reads INPUT as its standard input; what it prints is dropped. */
#define _DEFAULT_SOURCE

#include <fcntl.h>
#include <stdio.h>
#include <stdlib.h>
#include <string.h>
#include <sys/resource.h>
#include <sys/wait.h>
#include <unistd.h>

enum { MOST_COMMANDS = 16 };

/* User and system time of one run. */
static long run(const char *input, char **command)
{
    pid_t child = fork();
    if (child == 0) {
        int in = open(input, O_RDONLY), out = open("/dev/null", O_WRONLY);
        if (in < 0 || out < 0 || dup2(in, STDIN_FILENO) < 0 || dup2(out, STDOUT_FILENO) < 0)
            _exit(2);
        execv(command[0], command);
        _exit(2);
    }
    int status;
    struct rusage used;
    if (child < 0 || wait4(child, &status, 0, &used) != child || !WIFEXITED(status) || WEXITSTATUS(status) != 0) {
        fprintf(stderr, "clock: %s failed\n", command[0]);
        exit(1);
    }
    return 1000000L * (used.ru_utime.tv_sec + used.ru_stime.tv_sec) + used.ru_utime.tv_usec + used.ru_stime.tv_usec;
}

int main(int argc, char **argv)
{
    char **commands[MOST_COMMANDS];
    long least[MOST_COMMANDS];
    int count = 0;
    if (argc < 4) {
        fprintf(stderr, "usage: clock TIMES INPUT COMMAND [ARGUMENT ..] [-- COMMAND [ARGUMENT ..]]..\n");
        return 2;
    }
    commands[count++] = argv + 3;
    for (int i = 4; i < argc && count < MOST_COMMANDS; i++) {
        if (strcmp(argv[i], "--") == 0) {
            argv[i] = NULL;
            commands[count++] = argv + i + 1;
        }
    }
    for (int time = 0; time < atoi(argv[1]); time++) {
        for (int i = 0; i < count; i++) {
            long used = run(argv[2], commands[i]);
            if (time == 0 || used < least[i])
                least[i] = used;
        }
    }
    for (int i = 0; i < count; i++)
        printf("%ld\n", least[i]);
    return 0;
}
