/* An adapter of your system in a few functions: fill in a struct vma_system, and call vma_serve in main.
 *
 * vma_serve reads traces on standard input, one or as many as `vma compare --batch` and `vma conform --batch` send, makes their
 * calls through your functions, and writes the results. Each function may be missing (NULL): traces then don't have it. A call
 * returns an address or 0, or a negative errno. Addresses, lengths and offsets are in bytes, protections and flags the bits of
 * Linux. It is C99, and needs nothing else. Traces are taken to be good, as the tools make them. */
#ifndef VMA_ADAPTER_H
#define VMA_ADAPTER_H

#include <errno.h>
#include <inttypes.h>
#include <stdbool.h>
#include <stdio.h>
#include <stdlib.h>
#include <string.h>

struct vma_settings {
    uint64_t top, min, heap, end; /* where the first search begins and ends, where the heap begins or 0, where user memory ends */
    uint64_t limit;               /* how many VMAs there may be */
};

struct vma_file { /* what a mapping maps: keep its address with the VMA. It lives until the next trace. */
    int fd;
    char mode[3];
    uint64_t size, inode;
    unsigned major, minor;
    const char *name;
};

struct vma_area {
    uint64_t start, end;
    int prot;
    bool shared, heap;
    const struct vma_file *file; /* or NULL */
    uint64_t offset;
};

struct vma_system {
    const char *lacks; /* words beside the missing functions: settings, operations, flags, `wide`; or NULL */
    void *(*open)(const struct vma_settings *settings);
    void (*close)(void *space);
    void *(*fork)(void *space); /* a copy */
    int64_t (*mmap)(void *space, uint64_t address, uint64_t length, int prot, uint64_t flags, const struct vma_file *file, uint64_t offset);
    int64_t (*munmap)(void *space, uint64_t address, uint64_t length);
    int64_t (*mprotect)(void *space, uint64_t address, uint64_t length, int prot);
    int64_t (*mremap)(void *space, uint64_t old, uint64_t old_length, uint64_t new_length, uint64_t flags, uint64_t new_address);
    int64_t (*brk)(void *space, uint64_t address);
    int64_t (*mseal)(void *space, uint64_t address, uint64_t length, uint64_t flags);
    /* The signal and its code ("SIGSEGV SEGV_MAPERR"), or NULL and the VMA that serves the access; `grew` if it was expanded. */
    const char *(*fault)(void *space, uint64_t address, char access, struct vma_area *served, bool *grew);
    /* How many VMAs there are; the first `room` of them, by address. */
    size_t (*areas)(void *space, struct vma_area *list, size_t room);
};

/* What follows is how it does that. */

struct vma_text { char *bytes; size_t length, room; };
struct vma_item { uint64_t version; int thread, is_call; size_t place; struct vma_text text; };
struct vma_run { void *space; int child, objects; uint64_t version; struct vma_text head; struct vma_item *items; size_t count, room; };
struct vma_state {
    const struct vma_system *system;
    struct vma_settings settings;
    struct vma_file **files;
    int file_count, file_room;
    struct vma_run runs[64]; /* the parent's first; then by child */
    bool is_open;
};

static void vma_out_of_memory(void) { fputs("no memory\n", stderr); exit(6); }

static void *vma_room(void *old, size_t size)
{
    void *place = realloc(old, size);
    if (!place) vma_out_of_memory();
    return place;
}

static void vma_add(struct vma_text *text, const char *piece)
{
    size_t length = strlen(piece);
    if (text->length + length + 1 > text->room) text->bytes = vma_room(text->bytes, text->room = 2 * (text->length + length + 1));
    memcpy(text->bytes + text->length, piece, length + 1);
    text->length += length;
}

static const char *vma_error(int number)
{
    static const struct { int number; const char *name; } names[] = {
        {EPERM, "EPERM"}, {ENOENT, "ENOENT"}, {EBADF, "EBADF"}, {EAGAIN, "EAGAIN"}, {ENOMEM, "ENOMEM"}, {EACCES, "EACCES"},
        {EFAULT, "EFAULT"}, {EEXIST, "EEXIST"}, {ENODEV, "ENODEV"}, {EINVAL, "EINVAL"}, {ENOSYS, "ENOSYS"}, {EOVERFLOW, "EOVERFLOW"},
        {EOPNOTSUPP, "EOPNOTSUPP"}, {EBUSY, "EBUSY"}, {EIO, "EIO"}};
    for (size_t i = 0; i < sizeof names / sizeof *names; i++)
        if (names[i].number == number) return names[i].name;
    return "EIO";
}

static void vma_perms(const struct vma_area *a, char *to)
{
    sprintf(to, "%08" PRIx64 "-%08" PRIx64 " %c%c%c%c", a->start, a->end, a->prot & 1 ? 'r' : '-', a->prot & 2 ? 'w' : '-',
            a->prot & 4 ? 'x' : '-', a->shared ? 's' : 'p');
}

static void vma_list(struct vma_state *s, void *space, struct vma_text *to)
{
    size_t count = s->system->areas ? s->system->areas(space, NULL, 0) : 0;
    struct vma_area *list = vma_room(NULL, (count + 1) * sizeof *list);
    char line[256], perms[64];
    if (count) s->system->areas(space, list, count);
    sprintf(line, "maps %zu\n", count);
    vma_add(to, line);
    for (size_t i = 0; i < count; i++) {
        const struct vma_file *f = list[i].file;
        const char *name = f ? f->name : list[i].heap ? "[heap]" : "";
        vma_perms(&list[i], perms);
        int length = sprintf(line, "%s %08" PRIx64 " %02x:%02x %" PRIu64 " ", perms, f ? list[i].offset : 0, f ? f->major : 0,
                             f ? f->minor : 0, f ? f->inode : 0);
        vma_add(to, line);
        if (*name) {
            sprintf(line, "%*s", length < 73 ? 73 - length : 1, "");
            vma_add(to, line);
            vma_add(to, name);
        }
        vma_add(to, "\n");
    }
    free(list);
}

static uint64_t vma_flags(const char *text)
{
    static const struct { const char *name; uint64_t bit; } names[] = {
        {"PROT_READ", 1}, {"PROT_WRITE", 2}, {"PROT_EXEC", 4}, {"PROT_NONE", 0}, {"MAP_SHARED", 1}, {"MAP_PRIVATE", 2}, {"MAP_FIXED", 0x10},
        {"MAP_ANONYMOUS", 0x20}, {"MAP_GROWSDOWN", 0x100}, {"MAP_DENYWRITE", 0x800}, {"MAP_EXECUTABLE", 0x1000}, {"MAP_NORESERVE", 0x4000},
        {"MAP_POPULATE", 0x8000}, {"MAP_STACK", 0x20000}, {"MAP_FIXED_NOREPLACE", 0x100000}, {"MREMAP_MAYMOVE", 1}, {"MREMAP_FIXED", 2},
        {"MREMAP_DONTUNMAP", 4}, {"0", 0}};
    uint64_t bits = 0;
    while (*text) {
        size_t length = strcspn(text, "|");
        for (size_t i = 0; i < sizeof names / sizeof *names; i++)
            if (strlen(names[i].name) == length && !memcmp(names[i].name, text, length)) bits |= names[i].bit;
        text += length + (text[length] == '|');
    }
    return bits;
}

static uint64_t vma_number(const char *text) { return strtoull(text, NULL, text[0] == '0' && text[1] == 'x' ? 16 : 10); }

static const struct vma_file *vma_file_of(struct vma_state *s, const char *word)
{
    for (int i = 0; i < s->file_count; i++)
        if (s->files[i]->fd >= 0 && s->files[i]->fd == atoi(word)) return s->files[i];
    return NULL;
}

static struct vma_file *vma_new_file(struct vma_state *s, struct vma_file file, const char *name)
{
    struct vma_file *made = vma_room(NULL, sizeof file + strlen(name) + 1);
    if (s->file_count == s->file_room) s->files = vma_room(s->files, (s->file_room = 2 * s->file_room + 64) * sizeof *s->files);
    *made = file;
    made->name = strcpy((char *)(made + 1), name);
    return s->files[s->file_count++] = made;
}

/* The result of a call. */
static int64_t vma_call(struct vma_state *s, struct vma_run *run, char **w)
{
    const struct vma_system *y = s->system;
    void *p = run->space;
    if (!strcmp(w[1], "mmap") && y->mmap) {
        uint64_t flags = vma_flags(w[5]);
        const struct vma_file *file = flags & 0x20 ? NULL : vma_file_of(s, w[6]);
        bool is_new = (flags & 0x21) == 0x21; /* shared memory without a file: each has a number of its own */
        if (is_new) file = vma_new_file(s, (struct vma_file){-1, "rw", INT64_MAX, run->objects + 1, 0, 1, NULL}, "/dev/zero (deleted)");
        int64_t reply = y->mmap(p, vma_number(w[2]), vma_number(w[3]), vma_flags(w[4]), flags, file, vma_number(w[7]));
        run->objects += is_new && reply >= 0;
        return reply;
    }
    if (!strcmp(w[1], "munmap") && y->munmap) return y->munmap(p, vma_number(w[2]), vma_number(w[3]));
    if (!strcmp(w[1], "mprotect") && y->mprotect) return y->mprotect(p, vma_number(w[2]), vma_number(w[3]), vma_flags(w[4]));
    if (!strcmp(w[1], "mremap") && y->mremap)
        return y->mremap(p, vma_number(w[2]), vma_number(w[3]), vma_number(w[4]), vma_flags(w[5]), w[6] ? vma_number(w[6]) : 0);
    if (!strcmp(w[1], "brk") && y->brk) return y->brk(p, vma_number(w[2]));
    if (!strcmp(w[1], "mseal") && y->mseal) return y->mseal(p, vma_number(w[2]), vma_number(w[3]), vma_number(w[4]));
    return -ENOSYS;
}

static void vma_fork(struct vma_state *s, struct vma_run *run, int child, unsigned line, struct vma_text *to)
{
    char text[80];
    struct vma_run *made = &s->runs[child];
    sprintf(text, "child %d areas %zu\n", child, s->system->areas ? s->system->areas(run->space, NULL, 0) : 0);
    vma_add(to, text);
    sprintf(text, "child %d of L%u v%" PRIu64 "\n", child, line, run->version);
    made->child = child;
    made->objects = run->objects;
    made->space = s->system->fork(run->space);
    vma_add(&made->head, text);
}

static void vma_operation(struct vma_state *s, unsigned line, char **w, int count)
{
    char text[160], perms[64];
    int thread = atoi(w[0]);
    struct vma_run *run = s->runs[thread].child ? &s->runs[thread] : &s->runs[0];
    struct vma_text result = {0};
    bool is_call = false;
    if (count > 2 && !strncmp(w[count - 1], "after=", 6)) w[count - 1] = NULL;
    if (!strcmp(w[1], "maps")) {
        vma_list(s, run->space, &result);
    } else if (!strcmp(w[1], "fork") && s->system->fork) {
        vma_fork(s, run, atoi(w[2]), line, &result);
    } else if (!strcmp(w[1], "fault") && s->system->fault) {
        struct vma_area area = {0};
        uint64_t address = vma_number(w[2]);
        const char *signal = s->system->fault(run->space, address, *w[3], &area, &is_call);
        vma_perms(&area, perms);
        sprintf(text, "served %s page %" PRIu64, perms, area.file ? (area.offset + address - area.start) / 4096 : 0);
        vma_add(&result, signal ? signal : text);
        vma_add(&result, "\n");
    } else {
        int64_t reply = vma_call(s, run, w);
        is_call = true;
        sprintf(text, "-1 %s\n", vma_error((int)-reply));
        if (reply >= 0) sprintf(text, reply || !strcmp(w[1], "brk") ? "0x%" PRIx64 "\n" : "0\n", (uint64_t)reply);
        vma_add(&result, text);
    }
    run->version += is_call;
    if (run->count == run->room) run->items = vma_room(run->items, (run->room = 2 * run->room + 64) * sizeof *run->items);
    struct vma_item *item = &run->items[run->count];
    *item = (struct vma_item){run->version, thread, is_call, run->count, {0}};
    run->count++;
    sprintf(text, "L%u t%d v%" PRIu64 " = ", line, thread, run->version);
    vma_add(&item->text, text);
    vma_add(&item->text, result.bytes);
    free(result.bytes);
}

/* By version, the call first, then the reads by thread, those of one thread in the order of their lines. */
static int vma_order(const void *left, const void *right)
{
    const struct vma_item *a = left, *b = right;
    if (a->version != b->version) return a->version < b->version ? -1 : 1;
    if (a->is_call != b->is_call) return b->is_call - a->is_call;
    if (!a->is_call && a->thread != b->thread) return a->thread - b->thread;
    return a->place < b->place ? -1 : a->place > b->place;
}

static void vma_open(struct vma_state *s)
{
    if (s->is_open) return;
    s->is_open = true;
    s->runs[0].objects = s->file_count;
    s->runs[0].space = s->system->open(&s->settings);
}

static void vma_begin(struct vma_state *s)
{
    const struct vma_settings settings = {0x7ffff7fff000, 0x10000, 0, 0x7ffffffff000, 65530};
    memset(s->runs, 0, sizeof s->runs);
    s->settings = settings;
    s->file_count = 0;
    s->is_open = false;
}

/* Writes the output of a trace, and forgets it. */
static void vma_end(struct vma_state *s)
{
    vma_open(s);
    for (int i = 0; i < 64; i++) {
        struct vma_run *run = &s->runs[i];
        if (i && !run->child) continue;
        if (run->head.bytes) fputs(run->head.bytes, stdout);
        if (run->count) qsort(run->items, run->count, sizeof *run->items, vma_order);
        for (size_t k = 0; k < run->count; k++) {
            fputs(run->items[k].text.bytes, stdout);
            free(run->items[k].text.bytes);
        }
        struct vma_text list = {0};
        vma_list(s, run->space, &list);
        fputs(list.bytes, stdout);
        free(list.bytes);
        free(run->items);
        free(run->head.bytes);
        if (s->system->close) s->system->close(run->space);
    }
    for (int i = 0; i < s->file_count; i++) free(s->files[i]);
}

static void vma_line(struct vma_state *s, unsigned number, char *text)
{
    char *w[12] = {0}, *rest = text, name[4200] = "";
    struct vma_file file = {0};
    int count = 0, at = 0;
    if (sscanf(text, " file %d %2s %" SCNu64 " %x:%x %" SCNu64 "%*[ \t]%n", &file.fd, file.mode, &file.size, &file.major, &file.minor, &file.inode, &at) == 6) {
        vma_new_file(s, file, strncpy(name, text + at, sizeof name - 1));
        return;
    }
    for (char *word; count < 11 && (word = strtok(rest, " \t")); rest = NULL) w[count++] = word;
    if (!count || w[0][0] == '#') return;
    if (!strcmp(w[0], "vmatrace") && w[1][0] == '2') s->settings.end = 0xfffffffffff000;
    if (!strcmp(w[0], "limit")) s->settings.limit = vma_number(w[2]);
    if (!strcmp(w[0], "top")) s->settings.top = vma_number(w[1]);
    if (!strcmp(w[0], "min")) s->settings.min = vma_number(w[1]);
    if (!strcmp(w[0], "heap")) s->settings.heap = vma_number(w[1]);
    if (w[0][0] < '0' || w[0][0] > '9') return;
    vma_open(s);
    vma_operation(s, number, w, count);
}

static bool vma_lacks(const struct vma_system *y, const char *word)
{
    size_t length = strlen(word);
    for (const char *at = y->lacks; at && (at = strstr(at, word)); at += length)
        if ((at == y->lacks || at[-1] == ' ') && (!at[length] || at[length] == ' ')) return true;
    return false;
}

/* Says what the system has, before the first answer. */
static void vma_tell(const struct vma_system *y)
{
    const struct { const char *name; bool is_there; } words[] = {
        {"mmap", y->mmap}, {"munmap", y->munmap}, {"mprotect", y->mprotect}, {"mremap", y->mremap}, {"brk", y->brk}, {"mseal", y->mseal},
        {"fault", y->fault}, {"maps", y->areas}, {"fork", y->fork}, {"limit", true}, {"top", true}, {"min", true}, {"heap", y->brk},
        {"file", true}, {"wide", true}};
    printf("has");
    for (size_t i = 0; i < sizeof words / sizeof *words; i++)
        if (words[i].is_there && !vma_lacks(y, words[i].name)) printf(" %s", words[i].name);
    for (const char *at = y->lacks; at && (at = strchr(at, 'M')); at += strcspn(at, " ")) printf(" -%.*s", (int)strcspn(at, " "), at);
    printf("\n");
}

static int vma_serve(const struct vma_system *system)
{
    static struct vma_state s;
    static char line[8192], last[64]; /* the line that ends the trace, of many */
    unsigned number = 0;
    bool has_told = false;
    s.system = system;
    vma_begin(&s);
    while (fgets(line, sizeof line, stdin)) {
        line[strcspn(line, "\n")] = 0;
        if (!strncmp(line, "trace ", 6)) { /* trace N SECONDS: the trace begins in the next line */
            vma_begin(&s);
            snprintf(last, sizeof last, "end %.*s", (int)strcspn(line + 6, " "), line + 6);
            number = 0;
        } else if (*last && !strcmp(line, last)) { /* end N: the output is wanted, and the same line behind it */
            if (!has_told) vma_tell(system);
            has_told = true;
            vma_end(&s);
            printf("%s\n", line);
            fflush(stdout);
        } else {
            vma_line(&s, ++number, line);
        }
    }
    if (!*last) vma_end(&s);
    return fflush(stdout) || ferror(stdout) ? 5 : 0;
}

#endif
