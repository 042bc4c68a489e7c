/* Makes the calls of a trace for real, on the system that it runs on: a kernel, an emulator or a sandbox.

   building.py compiles it, and scripts.py writes what it reads on standard input: a `struct start`, a `struct file` for each file
   and a `struct operation` for each line. What the system answered goes to standard output, a line each:

       shift N                           what was added to each address of the trace
       at LINE                           an operation begins: where nothing follows, the system hangs in it, or has died
       reply LINE VALUE                  of a call: what the system call returned, in hexadecimal
       fault LINE SIGNAL CODE MAPPED     of an access: 0 0 where it was served; whether the page was mapped before it
       list LINE / end                   of a read of the list, of a fork and of the end (line 0): between them its areas
       area TEXT                         below a reply or a fault: the line of the list that has the address
       died SIGNAL, ended STATUS         a child of a fork was killed by a signal, or ended so
       stop STATUS TEXT                  it ends with this status: 4 where the trace asks for what this system cannot do,
                                         5 where the system does not let it work

   There is no C library here, since one would map memory of its own. Where the start asks for an empty space, the program is linked
   far above all that a search for a place finds first, with its stack among its own data, and so it can unmap everything else.
   Otherwise all else stays as it is, and it keeps to a window of addresses.

   With the word `serve` it runs many scripts, each in a child of its own: on standard input comes the length of a script and then
   the script, and behind the answers stands `done STATUS`. With the name of a serial line it does so as the first process of a machine.
   It never executes itself anew, but as the first process of a machine: an emulator may be left by that. */

#pragma GCC visibility push(hidden) /* all names are of this one program: their addresses need no table */

#include "processor.h"

/* Kinds of operations: system calls by their numbers on x86-64, whatever the processor, and what is no system call. */
enum { DO_MMAP = 9, DO_MPROTECT = 10, DO_MUNMAP = 11, DO_BRK = 12, DO_MREMAP = 25, DO_FORK = 57, DO_FAULT = 1000, DO_MAPS = 1001 };
enum { CANNOT = 4, FORBIDDEN = 5, DIED = 6 }; /* statuses */
enum { PAGE = 4096, GUARD = 256 * PAGE, BURST = 2048, MOST_FILES = 1024, AT_CWD = -100, NO_RANDOMISATION = 0x0040000 };
enum { MAP_SHARED = 1, MAP_PRIVATE = 2, MAP_FIXED = 16, MAP_ANONYMOUS = 32, SIGILL = 4, SIGTRAP = 5, SIGBUS = 7, SIGFPE = 8,
       SIGKILL = 9, SIGSEGV = 11, SIGCHLD = 17, SI_KERNEL = 128, O_RDONLY = 0, O_WRONLY = 1, O_RDWR = 2, RLIMIT_STACK = 3,
       RLIMIT_NOFILE = 7 };

#define USER_END 0x7ffffffff000ul
#define FROM_ANYWHERE ((word)-1)

struct start {
    word magic;
    word is_empty;        /* whether all else is unmapped; otherwise it keeps to the window */
    word low, high;       /* the window, in addresses of the trace */
    word shift;           /* what is added to these; with a heap, it is found so that the system's break is that of the trace */
    word top;             /* in an empty space: where the search for a place has to begin */
    word heap;            /* where the heap begins, or 0: then the break is left where it is */
    word areas;           /* how many areas have to be there before the trace's first, or 0: then it does not matter */
    word filler, filler_end; /* where they are made */
    word own, own_end;    /* the addresses of this program */
    word stack;           /* how large an area that grows may get */
    word first_stack;     /* the same limit while the program is executed: it decides about `top` */
    word seconds;         /* after so many a script that a machine runs is ended, or 0 */
    word files, count;    /* of the files and of the operations */
};

struct file {
    word mode, size, descriptor; /* the descriptor where it is open already, or -1 */
};

struct operation {
    word kind, line, space, arguments[6];
    word shifted; /* which arguments are addresses, as bits */
    word file;    /* whether argument 4 is the place of a file */
};

static const word MAGIC = 0x326e7572616d76;
static struct start start;
static word shift;

/* System calls */

static int failed(word reply)
{
    return reply > -4096ul;
}

static word open_file(const char *path, word mode)
{
    return call(SYS_OPENAT, AT_CWD, (word)path, mode, 0, 0, 0);
}

static void limit(word resource, word most)
{
    word limits[2];
    if (failed(call(SYS_PRLIMIT, 0, resource, 0, (word)limits, 0, 0)))
        return;
    limits[0] = most < limits[1] ? most : limits[1];
    call(SYS_PRLIMIT, 0, resource, (word)limits, 0, 0, 0);
}

/* Text */

static char output[1 << 16];
static word written;

static void flush(void)
{
    for (word at = 0; at < written;) {
        word now = CALL(SYS_WRITE, 1, output + at, written - at);
        if (failed(now))
            CALL(SYS_EXIT, DIED, 0, 0);
        at += now;
    }
    written = 0;
}

static void put(const char *text, word length)
{
    for (word at = 0; at < length; at++) {
        if (written == sizeof output)
            flush();
        output[written++] = text[at];
    }
}

static void put_text(const char *text)
{
    word length = 0;
    while (text[length])
        length++;
    put(text, length);
}

static void put_digits(word value, int least)
{
    char digits[16];
    int length = 0;
    for (int at = 60; at >= 0; at -= 4)
        if (value >> at || at < 4 * least)
            digits[length++] = "0123456789abcdef"[value >> at & 15];
    put(digits, length);
}

static void put_number(word value)
{
    put_text(" ");
    put_digits(value, 1);
}

static void put_line(const char *name, word value)
{
    put_text(name);
    put_number(value);
    put_text("\n");
}

static void stop(int status, const char *why)
{
    put_text("stop");
    put_number(status);
    put_text(" ");
    put_text(why);
    put_text("\n");
    flush();
    CALL(SYS_EXIT, status, 0, 0);
}

/* The list */

struct area {
    word low, high;
    const char *rest; /* what stands behind the addresses, with its newline */
    word length;      /* of that */
};

static char text[1 << 14]; /* a line of the list has fewer bytes than this */
static word filled;

static word number_of(const char **from)
{
    word value = 0;
    for (;; ++*from) {
        char c = **from;
        if (c >= '0' && c <= '9')
            value = value * 16 + c - '0';
        else if (c >= 'a' && c <= 'f')
            value = value * 16 + c - 'a' + 10;
        else
            return value;
    }
}

/* Gives each whole line in `text` to `take`, and keeps what stands behind the last one. */
static void take_lines(void (*take)(const struct area *area))
{
    word begin = 0;
    for (word at = 0; at < filled; at++) {
        struct area area;
        if (text[at] != '\n')
            continue;
        area.rest = text + begin;
        area.low = number_of(&area.rest);
        area.rest++; /* the dash */
        area.high = number_of(&area.rest);
        area.length = text + at + 1 - area.rest;
        take(&area);
        begin = at + 1;
    }
    for (word at = begin; at < filled; at++)
        text[at - begin] = text[at];
    filled -= begin;
}

static void read_list(void (*take)(const struct area *area))
{
    word file = open_file("/proc/self/maps", O_RDONLY), more;
    if (failed(file))
        stop(FORBIDDEN, "/proc/self/maps cannot be read");
    filled = 0;
    while ((more = CALL(SYS_READ, file, text + filled, sizeof text - filled)) && !failed(more)) {
        filled += more;
        take_lines(take);
    }
    CALL(SYS_CLOSE, file, 0, 0);
}

static void put_area(const struct area *area)
{
    put_digits(area->low - shift, 8);
    put_text("-");
    put_digits(area->high - shift, 8);
    put(area->rest, area->length);
}

static int lies_in(const struct area *area, word low, word high)
{
    return low <= area->low && area->low < high;
}

/* Whether an area is one of the trace, and not of this program or of the system. */
static int is_of_trace(const struct area *area)
{
    if (!start.is_empty)
        return area->low - shift + PAGE < start.high + PAGE ? area->high > start.low + shift : 0;
    return !lies_in(area, start.own, start.own_end) && !lies_in(area, start.filler, start.filler_end) && area->low >> 63 == 0;
}

static void take_all(const struct area *area)
{
    if (is_of_trace(area))
        put_area(area);
}

static word wanted, was_found, counted;

static void take_wanted(const struct area *area)
{
    if (area->low <= wanted && wanted < area->high) {
        was_found = 1;
        put_text("area ");
        put_area(area);
    }
}

static void take_found(const struct area *area)
{
    was_found |= area->low <= wanted && wanted < area->high;
}

static void take_count(const struct area *area)
{
    counted += area->low >> 63 == 0; /* that of [vsyscall] is no area of the process */
}

static void take_near(const struct area *area)
{
    word low = start.low + shift, from = low > GUARD ? low - GUARD : 0;
    was_found |= area->low < start.high + shift + PAGE && from < area->high;
}

static void put_area_of(word address)
{
    wanted = address;
    read_list(take_wanted);
}

static void put_list(word line)
{
    put_line("list", line);
    read_list(take_all);
    put_text("end\n");
}

/* Accesses */

/* What the signal was that ended an access. */
static word told_signal, told_code, told_address;

static void on_signal(int signal, word *info, word *context)
{
    told_signal = signal;
    told_code = (word)(unsigned)info[1];
    told_address = info[2];
    context[CONTEXT_PC] = (word)resume;
}

static void catch_signals(void)
{
    static const int signals[] = { SIGILL, SIGTRAP, SIGBUS, SIGFPE, SIGSEGV };
    word action[4] = { (word)on_signal, 4 | 0x04000000, (word)restore, 0 }; /* SA_SIGINFO, SA_RESTORER */
    for (word at = 0; at < sizeof signals / sizeof *signals; at++)
        call(SYS_SIGACTION, signals[at], (word)action, 0, 8, 0, 0);
}

/* Some emulators answer mincore(2) otherwise, so it is asked in an empty space alone, where the list may be long. */
static word is_mapped(word address)
{
    unsigned char in_memory;
    if (start.is_empty)
        return !failed(CALL(SYS_MINCORE, address & -PAGE, PAGE, &in_memory));
    wanted = address;
    was_found = 0;
    read_list(take_found);
    return was_found;
}

static void run_fault(const struct operation *operation)
{
    word address = operation->arguments[0] + shift, how = operation->arguments[1], page = address & -PAGE;
    word was_mapped = is_mapped(address);
    told_signal = told_code = 0;
    /* The first bytes of the page, since an instruction at its end would go on in the next. */
    access(how == 2 ? page : address, how);
    /* Where the instruction was fetched, it is one that fails by itself. */
    if (how == 2 && told_code != SI_KERNEL && (told_signal == SIGILL || (told_address & -PAGE) != page))
        told_signal = told_code = 0;
    put_text("fault");
    put_number(operation->line);
    put_number(told_signal);
    put_number(told_code);
    put_number(was_mapped);
    put_text("\n");
    if (!told_signal)
        put_area_of(address);
}

/* Operations */

static int run(word space, word at);

static word file_of[MOST_FILES];

static word number_here(word kind)
{
    switch (kind) {
    case DO_MMAP: return SYS_MMAP;
    case DO_MPROTECT: return SYS_MPROTECT;
    case DO_MUNMAP: return SYS_MUNMAP;
    case DO_BRK: return SYS_BRK;
    case DO_MREMAP: return SYS_MREMAP;
    }
    return kind; /* mseal has the same number everywhere */
}

static void run_call(const struct operation *operation)
{
    word a[6], kind = operation->kind, is_place = kind == DO_MMAP || kind == DO_MREMAP || kind == DO_BRK;
    for (int at = 0; at < 6; at++)
        a[at] = operation->arguments[at] + (operation->shifted >> at & 1 ? shift : 0);
    if (operation->file)
        a[4] = file_of[operation->arguments[4]];
    word reply = call(number_here(kind), a[0], a[1], a[2], a[3], a[4], a[5]);
    put_text("reply");
    put_number(operation->line);
    put_number(is_place && !failed(reply) ? reply - shift : reply);
    put_text("\n");
    /* Each mapping of shared anonymous memory is an object of its own, which the list shows by a number. */
    if (kind == DO_MMAP && !failed(reply) && a[3] & MAP_SHARED && a[3] & MAP_ANONYMOUS)
        put_area_of(reply);
}

static void run_fork(const struct operation *operation, word next)
{
    int status = 0;
    flush();
    word child = CALL(SYS_CLONE, SIGCHLD, 0, 0);
    if (failed(child))
        stop(FORBIDDEN, "there may be no more processes");
    if (child == 0) {
        CALL(SYS_PRCTL, 1, SIGKILL, 0); /* PR_SET_PDEATHSIG: it does not outlive its parent */
        put_list(operation->line);
        CALL(SYS_EXIT, run(operation->arguments[0], next), 0, 0);
    }
    call(SYS_WAIT4, child, (word)&status, 0, 0, 0, 0);
    if (!status)
        return;
    if (status & 127)
        put_line("died", status & 127);
    else
        put_line("ended", status >> 8);
    flush();
    CALL(SYS_EXIT, DIED, 0, 0);
}

/* An operation, of those that were read last or of the next ones. */
static const struct operation *operation_at(word at)
{
    static struct operation some[32];
    static word first, size;
    if (at >= start.count)
        return 0;
    if (at < first || at >= first + size) {
        word place = sizeof start + start.files * sizeof(struct file) + at * sizeof *some;
        word now = call(SYS_PREAD, 0, (word)some, sizeof some, place, 0, 0);
        if (failed(now) || now < sizeof *some)
            stop(FORBIDDEN, "the operations cannot be read");
        first = at;
        size = now / sizeof *some;
    }
    return some + at - first;
}

/* Runs the operations of one space, from one on. A child runs them while its parent waits: neither sees what the other does. */
static int run(word space, word at)
{
    const struct operation *next;
    while ((next = operation_at(at++))) {
        struct operation operation = *next;
        if (operation.space != space)
            continue;
        put_line("at", operation.line);
        flush();
        if (operation.kind == DO_FAULT)
            run_fault(&operation);
        else if (operation.kind == DO_MAPS)
            put_list(operation.line);
        else if (operation.kind == DO_FORK)
            run_fork(&operation, at);
        else
            run_call(&operation);
    }
    put_list(0);
    flush();
    return 0;
}

/* Files */

/* Opens a descriptor anew in a mode. */
static word reopened(word descriptor, word mode)
{
    char path[] = "/proc/self/fd/0000", digits[4];
    int length = 0;
    do
        digits[length++] = '0' + descriptor % 10;
    while ((descriptor /= 10) && length < 4);
    for (int at = 0; at < length; at++)
        path[14 + at] = digits[length - 1 - at];
    path[14 + length] = 0;
    return open_file(path, mode);
}

/* A file in memory without contents. Its name tells its place among the files. */
static word made_file(word place, const struct file *file)
{
    char name[] = "vmatrace-0000";
    for (int at = 12; at > 8; at--, place /= 10)
        name[at] = '0' + place % 10;
    word made = CALL(SYS_MEMFD, name, 0, 0);
    if (failed(made) || failed(CALL(SYS_FTRUNCATE, made, file->size, 0)))
        stop(CANNOT, "a file of the trace's size cannot be made: memfd_create or ftruncate fails");
    word opened = reopened(made, file->mode);
    if (failed(opened))
        stop(CANNOT, "a file of the trace cannot be opened by /proc/self/fd");
    CALL(SYS_CLOSE, made, 0, 0);
    return opened;
}

static void make_files(void)
{
    limit(RLIMIT_NOFILE, 2 * MOST_FILES + 64);
    for (word at = 0; at < start.files; at++) {
        struct file file;
        if (call(SYS_PREAD, 0, (word)&file, sizeof file, sizeof start + at * sizeof file, 0, 0) != sizeof file)
            stop(FORBIDDEN, "the files cannot be read");
        file_of[at] = file.descriptor == FROM_ANYWHERE ? made_file(at, &file) : file.descriptor;
    }
}

/* The space */

/* The last pages of this program lie right below the system's break, and are free for a trace with a heap. */
static char room[GUARD + 64 * PAGE] __attribute__((aligned(PAGE), section(".bss.zz_room")));

/* Root may map below vm.mmap_min_addr by CAP_SYS_RAWIO: without it, root is answered as others are. */
static void drop_raw_access(void)
{
    unsigned head[2] = { 0x20080522, 0 }, sets[6];
    if (failed(CALL(SYS_CAPGET, head, sets, 0)))
        return;
    sets[0] &= ~(1u << 17);
    sets[1] &= ~(1u << 17);
    CALL(SYS_CAPSET, head, sets, 0);
}

static void unmap_others(void)
{
    word below = CALL(SYS_MUNMAP, 0, start.own, 0);
    word above = CALL(SYS_MUNMAP, room, USER_END - (word)room, 0);
    if (failed(below) || failed(above))
        stop(FORBIDDEN, "what the kernel maps at the start (vdso, stack) cannot be unmapped: it may be sealed");
}

/* The break is a number of the process. This call needs no capability, but a kernel with CONFIG_CHECKPOINT_RESTORE. */
static void set_break(void)
{
    struct { word code, code_end, data, data_end, heap, heap_end, stack, words, words_end, environment, environment_end, *auxiliary;
             unsigned auxiliary_size, executable; } map;
    word own = start.own + PAGE;
    if (!start.heap)
        return;
    map.code = map.data = map.stack = map.words = map.words_end = map.environment = map.environment_end = own;
    map.code_end = map.data_end = own + PAGE;
    map.heap = map.heap_end = start.heap;
    map.auxiliary = 0;
    map.auxiliary_size = 0;
    map.executable = -1;
    if (failed(call(SYS_PRCTL, 35, 14, (word)&map, sizeof map, 0, 0))) /* PR_SET_MM, PR_SET_MM_MAP */
        stop(CANNOT, "the kernel puts no heap at the address of `heap`: it is below vm.mmap_min_addr or at the end, or prctl(PR_SET_MM_MAP) is not there");
}

/* Areas of one page that do not join, until so many are there as leave room for those of the trace alone. */
static void fill_list(void)
{
    if (!start.areas)
        return;
    counted = 0;
    read_list(take_count);
    if (counted > start.areas)
        stop(CANNOT, "vm.max_map_count is too low for the trace's `limit areas` and this program's own");
    for (word place = start.filler; counted < start.areas; counted++, place += PAGE) {
        word reply = call(SYS_MMAP, place, PAGE, counted & 1, MAP_PRIVATE | MAP_ANONYMOUS | MAP_FIXED, -1ul, 0);
        if (failed(reply))
            stop(FORBIDDEN, "the list cannot be filled up to the trace's `limit areas`");
    }
}

static void check_top(void)
{
    word place = call(SYS_MMAP, 0, PAGE, 0, MAP_PRIVATE | MAP_ANONYMOUS, -1ul, 0);
    if (failed(place) || place + PAGE != start.top)
        stop(CANNOT, "the kernel's search does not begin at the trace's `top` (which is 0x7ffff7fff000 where it sets none)");
    CALL(SYS_MUNMAP, place, PAGE, 0);
}

static void make_empty(void)
{
    word now = CALL(SYS_PERSONALITY, 0xffffffff, 0, 0);
    if (failed(now) || !(now & NO_RANDOMISATION))
        stop(FORBIDDEN, "personality(2) may not turn the randomisation of addresses off here");
    unmap_others();
    /* The stack's limit decides where searches begin when a program is executed, and after that how far an area may grow. */
    limit(RLIMIT_STACK, start.stack);
    set_break();
    check_top();
    fill_list();
}

static void make_window(void)
{
    limit(RLIMIT_STACK, start.stack);
    shift = start.shift;
    if (start.heap) {
        word now = CALL(SYS_BRK, 0, 0, 0);
        if (now & (PAGE - 1))
            now = CALL(SYS_BRK, (now + PAGE - 1) & -PAGE, 0, 0);
        shift = now - start.heap;
        CALL(SYS_MUNMAP, room, sizeof room, 0);
    }
    CALL(SYS_MUNMAP, start.low + shift, start.high - start.low, 0);
    was_found = 0;
    read_list(take_near);
    if (was_found)
        stop(FORBIDDEN, "the system has memory of its own in the window, or within 256 pages below it: give another one by --window or --shift");
}

/* Runs the script on descriptor 0. */
static void run_script(void)
{
    if (call(SYS_PREAD, 0, (word)&start, sizeof start, 0, 0, 0) != sizeof start || start.magic != MAGIC)
        stop(FORBIDDEN, "is started by `vma kernel` alone");
    make_files();
    drop_raw_access();
    if (start.is_empty)
        make_empty();
    else
        make_window();
    put_line("shift", shift);
    catch_signals();
    CALL(SYS_EXIT, run(0, 0), 0, 0);
}

/* Many scripts */

static int read_exactly(void *to, word length)
{
    for (word at = 0; at < length;) {
        word now = CALL(SYS_READ, 0, (char *)to + at, length - at);
        if (failed(now) || now == 0)
            return 0;
        at += now;
    }
    return 1;
}

static int is_line; /* whether standard input is a serial line, which loses what comes too fast */

/* Copies so many bytes of standard input, or all, to a file in memory. On a line they come in bursts, and each but the last is
   answered by `more`. */
static word copied(word length)
{
    static char some[BURST];
    word file = CALL(SYS_MEMFD, "script", 0, 0), now = 1, burst = 0;
    for (word left = length; left && now; left -= now) {
        word room = BURST - burst % BURST;
        now = CALL(SYS_READ, 0, some, left < room ? left : room);
        if (failed(now) || failed(CALL(SYS_WRITE, file, some, now)))
            stop(FORBIDDEN, "the script cannot be read");
        burst += now;
        if (is_line && burst % BURST == 0 && left > now) {
            put_text("more\n");
            flush();
        }
    }
    return file;
}

/* In the child: a space of its own, and no more time than the script has. A machine's begins empty by a new execution. */
static void run_served(int is_machine)
{
    char *words[] = { "runner", 0 };
    word limits[2] = { 0, -1ul };
    if (call(SYS_PREAD, 0, (word)&start, sizeof start, 0, 0, 0) != sizeof start)
        stop(FORBIDDEN, "the script cannot be read");
    word timer[4] = { 0, 0, start.seconds, 0 };
    call(SYS_SETITIMER, 0, (word)timer, 0, 0, 0, 0);
    if (start.is_empty && is_machine) {
        limits[0] = start.first_stack;
        call(SYS_PRLIMIT, 0, RLIMIT_STACK, (word)limits, 0, 0, 0);
        CALL(SYS_PERSONALITY, NO_RANDOMISATION, 0, 0);
        CALL(SYS_EXECVE, "/proc/self/exe", words, words + 1);
        stop(FORBIDDEN, "/proc/self/exe cannot be executed");
    }
    if (start.is_empty)
        stop(FORBIDDEN, "only a machine of its own serves scripts of an empty space");
    run_script();
}

static void serve(int is_machine)
{
    word length;
    put_text("ready\n");
    flush();
    while (read_exactly(&length, sizeof length) && length) {
        int status = 0;
        word script = copied(length);
        word child = CALL(SYS_CLONE, SIGCHLD, 0, 0);
        if (child == 0) {
            CALL(SYS_DUP3, script, 0, 0);
            CALL(SYS_CLOSE, script, 0, 0);
            run_served(is_machine);
        }
        call(SYS_WAIT4, child, (word)&status, 0, 0, 0, 0);
        CALL(SYS_CLOSE, script, 0, 0);
        put_line("done", (unsigned)status);
        flush();
    }
    CALL(SYS_EXIT, 0, 0, 0);
}

/* The first process of a machine */

static void write_setting(const char *path, const char *value, word length)
{
    word file = open_file(path, O_WRONLY);
    CALL(SYS_WRITE, file, value, length);
    CALL(SYS_CLOSE, file, 0, 0);
}

/* A serial line that hands on each byte as it is. */
static void make_raw(word port)
{
    unsigned char bytes[128];
    unsigned *flags = (unsigned *)bytes; /* of input, output, control and the line; then a byte, and those of control */
    CALL(SYS_IOCTL, port, 0x5401, bytes); /* TCGETS */
    flags[0] = flags[1] = flags[3] = 0;
    flags[2] = 0x1002 | 0x30 | 0x80 | 0x800; /* 115200 baud, eight bits, reads, no modem */
    bytes[17 + 5] = 0; /* VTIME, VMIN: a read waits for a byte */
    bytes[17 + 6] = 1;
    CALL(SYS_IOCTL, port, 0x5402, bytes); /* TCSETS */
}

static void begin_machine(const char *device)
{
    static const char *const folders[] = { "/proc", "/dev", "/tmp" };
    for (int at = 0; at < 3; at++)
        CALL(SYS_MKDIRAT, AT_CWD, folders[at], 0755);
    call(SYS_MOUNT, (word)"proc", (word)"/proc", (word)"proc", 0, 0, 0);
    call(SYS_MOUNT, (word)"dev", (word)"/dev", (word)"devtmpfs", 0, 0, 0);
    write_setting("/proc/sys/vm/mmap_min_addr", "4096\n", 5);
    write_setting("/proc/sys/vm/max_map_count", "2000\n", 5); /* so that a list is filled in time */
    word port = open_file(device, O_RDWR);
    if (failed(port))
        stop(FORBIDDEN, "the machine's serial line cannot be opened");
    make_raw(port);
    is_line = 1;
    CALL(SYS_DUP3, port, 0, 0);
    CALL(SYS_DUP3, port, 1, 0);
    serve(CALL(SYS_GETPID, 0, 0, 0) == 1);
}

void begin(word *stack)
{
    char **words = (char **)(stack + 1);
    if (*stack > 1 && words[1][0] == '/')
        begin_machine(words[1]);
    if (*stack > 1 && words[1][0] == 's')
        serve(0);
    if (failed(CALL(SYS_LSEEK, 0, 0, 1)))
        CALL(SYS_DUP3, copied(FROM_ANYWHERE), 0, 0);
    run_script();
}
