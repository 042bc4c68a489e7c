/* Asks diltzekun-live what random calls give, makes each of them on this kernel too, and stops at the first difference.
 * cc -o client client.c && ./client path/to/diltzekun-live [SEED] */
#include <errno.h>
#include <stdio.h>
#include <stdlib.h>
#include <string.h>
#include <sys/mman.h>
#include <unistd.h>

enum { PAGE = 4096, PAGES = 16, CALLS = 1000 };
static char *const window = (char *)0x10000000; /* nothing else may lie there */

/* Starts the oracle with a pipe to its input and one from its output. */
static void start(const char *program, FILE **ask, FILE **answer) {
    int in[2], out[2];
    if (pipe(in) || pipe(out)) exit(2);
    if (fork() == 0) {
        dup2(in[0], 0), dup2(out[1], 1);
        close(in[1]), close(out[0]);
        execl(program, program, (char *)NULL);
        perror(program);
        _exit(127);
    }
    close(in[0]), close(out[1]);
    *ask = fdopen(in[1], "w"), *answer = fdopen(out[0], "r");
}

/* Makes a call on this kernel, and gives its line and its result as the oracle writes them. */
static void call(char *line, char *result) {
    char *at = window + rand() % PAGES * PAGE;
    size_t len = (1 + rand() % 4) * PAGE;
    switch (rand() % 3) {
    case 0:
        sprintf(line, "0 mmap %p %zu PROT_READ MAP_PRIVATE|MAP_ANONYMOUS|MAP_FIXED -1 0", (void *)at, len);
        sprintf(result, "%p", mmap(at, len, PROT_READ, MAP_PRIVATE | MAP_ANONYMOUS | MAP_FIXED, -1, 0));
        return;
    case 1:
        sprintf(line, "0 munmap %p %zu", (void *)at, len);
        sprintf(result, munmap(at, len) ? "-1" : "0");
        return;
    default:
        sprintf(line, "0 mprotect %p %zu PROT_NONE", (void *)at, len);
        sprintf(result, !mprotect(at, len, PROT_NONE) ? "0" : errno == ENOMEM ? "-1 ENOMEM" : "-1");
    }
}

int main(int count, char **words) {
    char line[128], result[64], answer[256];
    FILE *ask, *answers;
    if (count < 2) return fprintf(stderr, "usage: client path/to/diltzekun-live [SEED]\n"), 2;
    srand(count > 2 ? atoi(words[2]) : 1);
    start(words[1], &ask, &answers);
    fprintf(ask, "vmatrace 1\n");
    for (int made = 0; made < CALLS; made++) {
        call(line, result);
        fprintf(ask, "%s\n", line), fflush(ask);
        if (!fgets(answer, sizeof answer, answers)) return fprintf(stderr, "the oracle ended\n"), 2;
        char *wanted = strstr(answer, "= ") ? strstr(answer, "= ") + 2 : answer;
        wanted[strcspn(wanted, "\n")] = 0;
        if (strcmp(wanted, result)) return printf("%s: kernel %s, oracle %s\n", line, result, wanted), 1;
    }
    fclose(ask);
    while (fgets(answer, sizeof answer, answers)) continue; /* the last list */
    return printf("%d calls: no difference\n", CALLS), 0;
}
