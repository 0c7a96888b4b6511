/* Runs a command, and writes what it used into a file: microseconds of a processor, KiB of memory at most, and its status, or 128 and the
 * signal that ended it. A program of its own, since what a command used is never told below what the process has that begins it.
 *
 *     used FILE COMMAND..
 */
#include <stdio.h>
#include <sys/resource.h>
#include <sys/wait.h>
#include <unistd.h>

static long microseconds(struct timeval time) { return time.tv_sec * 1000000L + time.tv_usec; }

int main(int count, char **words) {
    if (count < 3) return 2;
    pid_t child = fork();
    if (child < 0) return 1;
    if (child == 0) {
        execvp(words[2], words + 2);
        _exit(127);
    }
    int status;
    struct rusage used;
    if (wait4(child, &status, 0, &used) < 0) return 1;
    FILE *file = fopen(words[1], "w");
    if (!file) return 1;
    fprintf(file, "%ld %ld %d\n", microseconds(used.ru_utime) + microseconds(used.ru_stime), used.ru_maxrss,
            WIFEXITED(status) ? WEXITSTATUS(status) : 128 + WTERMSIG(status));
    return fclose(file) != 0;
}
