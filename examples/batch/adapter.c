/* A small address space behind an adapter: `cc -O2 -o adapter adapter.c`, then `vma compare --batch -- ./adapter`.
 * It is a sorted array of VMAs with mmap, munmap, mprotect and faults. Yours stands in the place of `struct space`. */
#include "vma_adapter.h"

enum { PAGE = 4096, WRITE = 2, SHARED = 1, PRIVATE = 2, FIXED = 0x10, ANONYMOUS = 0x20, NOREPLACE = 0x100000 };

struct space {
    struct vma_settings settings;
    struct vma_area *list;
    size_t count;
};

static uint64_t rounded(uint64_t length) { return length > UINT64_MAX - PAGE ? UINT64_MAX - PAGE + 1 : (length + PAGE - 1) / PAGE * PAGE; }

static void *space_open(const struct vma_settings *settings)
{
    struct space *s = calloc(1, sizeof *s);
    if (s) s->settings = *settings;
    return s;
}

static void space_close(void *space)
{
    free(((struct space *)space)->list);
    free(space);
}

static void *space_fork(void *space)
{
    struct space *s = malloc(sizeof *s);
    if (!s) return NULL;
    *s = *(struct space *)space;
    s->list = malloc((s->count + 1) * sizeof *s->list);
    if (s->list && s->count) memcpy(s->list, ((struct space *)space)->list, s->count * sizeof *s->list);
    return s;
}

static struct vma_area cut(struct vma_area area, uint64_t start, uint64_t end)
{
    if (area.file) area.offset += start - area.start;
    area.start = start;
    area.end = end;
    return area;
}

static void add(struct space *s, struct vma_area new)
{
    struct vma_area *last = s->count ? &s->list[s->count - 1] : NULL;
    if (last && last->end == new.start && last->prot == new.prot && last->shared == new.shared && last->file == new.file &&
        (!new.file || last->offset + last->end - last->start == new.offset))
        last->end = new.end;
    else
        s->list[s->count++] = new;
}

/* Unmaps a range, and puts a VMA there; neighbours that look alike are joined. */
static int64_t replace(struct space *s, uint64_t start, uint64_t end, const struct vma_area *new)
{
    struct space old = *s;
    s->list = malloc((old.count + 2) * sizeof *s->list);
    if (!s->list) return *s = old, -ENOMEM;
    s->count = 0;
    for (size_t i = 0; i < old.count; i++)
        if (old.list[i].start < start) add(s, cut(old.list[i], old.list[i].start, old.list[i].end < start ? old.list[i].end : start));
    if (new) add(s, *new);
    for (size_t i = 0; i < old.count; i++)
        if (old.list[i].end > end) add(s, cut(old.list[i], old.list[i].start > end ? old.list[i].start : end, old.list[i].end));
    free(old.list);
    return 0;
}

static bool is_mapped(const struct space *s, uint64_t start, uint64_t end)
{
    for (size_t i = 0; i < s->count; i++)
        if (s->list[i].start < end && s->list[i].end > start) return true;
    return false;
}

/* At the hint, or as high as there is room below the top, or as low as there is from a third of memory up; 0 where there is none. */
static uint64_t place(const struct space *s, uint64_t hint, uint64_t size)
{
    uint64_t end = s->settings.top, start = rounded(s->settings.end / 3);
    if (hint && hint < s->settings.min) hint = s->settings.min;
    if (hint && hint < s->settings.end && size <= s->settings.end - hint && !is_mapped(s, hint, hint + size)) return hint;
    for (size_t i = s->count; i-- > 0 && !(end >= s->list[i].end && end - s->list[i].end >= size);)
        if (s->list[i].start < end) end = s->list[i].start;
    if (end >= size && end - size >= s->settings.min) return end - size;
    if (start < s->settings.min) start = s->settings.min;
    for (size_t i = 0; i < s->count && !(s->list[i].start >= start && s->list[i].start - start >= size); i++)
        if (s->list[i].end > start) start = s->list[i].end;
    return size <= s->settings.end - start ? start : 0;
}

static int64_t space_mmap(void *space, uint64_t address, uint64_t length, int prot, uint64_t flags, const struct vma_file *file, uint64_t offset)
{
    struct space *s = space;
    uint64_t size = rounded(length), fixed = flags & (FIXED | NOREPLACE), start = address;
    bool is_of_file = file && !(flags & ANONYMOUS);
    if (offset % PAGE) return -EINVAL;
    if (!file && !(flags & ANONYMOUS)) return -EBADF;
    if (!size) return -EINVAL;
    if (size > s->settings.end) return -ENOMEM;
    if (is_of_file && (offset > INT64_MAX || size > INT64_MAX - offset)) return -EOVERFLOW;
    if (!(flags & SHARED) == !(flags & PRIVATE)) return -EINVAL;
    if (is_of_file && (!strchr(file->mode, 'r') || (!strchr(file->mode, 'w') && flags & SHARED && prot & WRITE))) return -EACCES;
    if (fixed && address % PAGE) return -EINVAL;
    if (fixed && address < s->settings.min) return -EPERM;
    if (fixed && (address > s->settings.end || size > s->settings.end - address)) return -ENOMEM;
    if (flags & NOREPLACE && is_mapped(s, address, address + size)) return -EEXIST;
    if (!fixed && !(start = place(s, address / PAGE * PAGE, size))) return -ENOMEM;
    struct vma_area new = {start, start + size, prot, flags & SHARED, false, file, is_of_file ? offset : 0};
    int64_t status = replace(s, start, start + size, &new);
    return status ? status : (int64_t)start;
}

static int64_t space_munmap(void *space, uint64_t address, uint64_t length)
{
    struct space *s = space;
    uint64_t size = rounded(length);
    if (address % PAGE || !size || size > s->settings.end || address > s->settings.end - size) return -EINVAL;
    return replace(s, address, address + size, NULL);
}

static int64_t space_mprotect(void *space, uint64_t address, uint64_t length, int prot)
{
    struct space *s = space;
    uint64_t size = rounded(length), end = address + size;
    if (address % PAGE) return -EINVAL;
    if (length > UINT64_MAX - PAGE || end < address) return -ENOMEM;
    for (size_t i = 0; i < s->count && address < end; i++) {
        struct vma_area part = s->list[i];
        if (part.end <= address) continue;
        if (part.start > address) return -ENOMEM;
        if (part.shared && part.file && !strchr(part.file->mode, 'w') && prot & WRITE) return -EACCES;
        part = cut(part, address, part.end < end ? part.end : end);
        part.prot = prot;
        if (replace(s, part.start, part.end, &part)) return -ENOMEM;
        address = part.end;
        i = (size_t)-1; /* the list is another one */
    }
    return address < end ? -ENOMEM : 0;
}

static const char *space_fault(void *space, uint64_t address, char access, struct vma_area *served, bool *grew)
{
    struct space *s = space;
    *grew = false;
    for (size_t i = 0; i < s->count; i++) {
        struct vma_area area = s->list[i];
        if (address < area.start || address >= area.end) continue;
        if (!(area.prot & (access == 'r' ? 7 : access == 'w' ? 2 : 4))) return "SIGSEGV SEGV_ACCERR";
        if (area.file && area.offset + address - area.start >= rounded(area.file->size)) return "SIGBUS BUS_ADRERR";
        *served = area;
        return NULL;
    }
    return "SIGSEGV SEGV_MAPERR";
}

static size_t space_areas(void *space, struct vma_area *list, size_t room)
{
    struct space *s = space;
    for (size_t i = 0; i < s->count && i < room; i++) list[i] = s->list[i];
    return s->count;
}

int main(void)
{
    const struct vma_system system = {
        .lacks = "limit top wide MAP_GROWSDOWN", .open = space_open, .close = space_close, .fork = space_fork, .mmap = space_mmap,
        .munmap = space_munmap, .mprotect = space_mprotect, .fault = space_fault, .areas = space_areas};
    return vma_serve(&system);
}
