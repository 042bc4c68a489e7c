#include <pthread.h>
#include <stdlib.h>
#include <string.h>
#include <sys/mman.h>
static void *work(void *seed) {
    unsigned state = (unsigned)(long)seed * 2654435761u + 1;
    for (int round = 0; round < 12; round++) {
        state = state * 1664525u + 1013904223u;
        size_t length = 4096 * (1 + (state >> 16) % 9);
        char *place = mmap(NULL, length, PROT_READ | PROT_WRITE, MAP_PRIVATE | MAP_ANONYMOUS, -1, 0);
        if (place == MAP_FAILED) return NULL;
        memset(place, 1, length);
        char *heap = malloc(70000 + (state >> 20));
        memset(heap, 2, 70000);
        mprotect(place, 4096, PROT_READ);
        free(heap);
        munmap(place, length);
    }
    return NULL;
}
int main(void) {
    pthread_t threads[8];
    for (long at = 0; at < 8; at++) pthread_create(&threads[at], NULL, work, (void *)at);
    for (int at = 0; at < 8; at++) pthread_join(threads[at], NULL);
    return 0;
}
