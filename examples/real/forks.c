#include <string.h>
#include <sys/mman.h>
#include <sys/wait.h>
#include <unistd.h>
/* Three workers: each takes memory of its own in what it has of its parent. The last one forks again. */
static void work(int which) {
    char *place = mmap(NULL, 4096 * (2 + which), PROT_READ | PROT_WRITE, MAP_PRIVATE | MAP_ANONYMOUS, -1, 0);
    memset(place, 1, 4096);
    mprotect(place, 4096, PROT_READ);
    if (which == 2 && fork() == 0) {
        munmap(place, 4096 * (2 + which));
        _exit(0);
    }
    munmap(place, 4096);
}
int main(void) {
    char *shared = mmap(NULL, 16384, PROT_READ | PROT_WRITE, MAP_SHARED | MAP_ANONYMOUS, -1, 0);
    shared[0] = 1;
    for (int which = 0; which < 3; which++) {
        if (fork() == 0) {
            work(which);
            _exit(0);
        }
        munmap(shared + 4096 * which, 4096);
    }
    while (wait(NULL) > 0)
        ;
    return 0;
}
