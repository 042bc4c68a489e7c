/* What of runner.c depends on the processor, x86-64 or aarch64: the numbers of system calls, how one is made, where a program begins,
   and accesses to memory that a handler of signals can end. */

typedef unsigned long word;

#if defined(__x86_64__)
enum { SYS_READ = 0, SYS_WRITE = 1, SYS_CLOSE = 3, SYS_LSEEK = 8, SYS_MMAP = 9, SYS_MPROTECT = 10, SYS_MUNMAP = 11, SYS_BRK = 12,
       SYS_SIGACTION = 13, SYS_IOCTL = 16, SYS_PREAD = 17, SYS_MREMAP = 25, SYS_MINCORE = 27, SYS_SETITIMER = 38, SYS_GETPID = 39,
       SYS_CLONE = 56, SYS_EXECVE = 59, SYS_EXIT = 60, SYS_WAIT4 = 61, SYS_FTRUNCATE = 77, SYS_CAPGET = 125, SYS_CAPSET = 126,
       SYS_PERSONALITY = 135, SYS_PRCTL = 157, SYS_MOUNT = 165, SYS_OPENAT = 257, SYS_MKDIRAT = 258, SYS_DUP3 = 292,
       SYS_PRLIMIT = 302, SYS_MEMFD = 319 };
enum { CONTEXT_PC = 5 + 16 }; /* the instruction pointer, the seventeenth register behind five words */
#else
enum { SYS_DUP3 = 24, SYS_IOCTL = 29, SYS_MKDIRAT = 34, SYS_MOUNT = 40, SYS_FTRUNCATE = 46, SYS_OPENAT = 56, SYS_CLOSE = 57,
       SYS_LSEEK = 62, SYS_READ = 63, SYS_WRITE = 64, SYS_PREAD = 67, SYS_CAPGET = 90, SYS_CAPSET = 91, SYS_PERSONALITY = 92,
       SYS_EXIT = 93, SYS_SETITIMER = 103, SYS_SIGACTION = 134, SYS_PRCTL = 167, SYS_GETPID = 172, SYS_BRK = 214, SYS_MUNMAP = 215,
       SYS_MREMAP = 216, SYS_CLONE = 220, SYS_EXECVE = 221, SYS_MMAP = 222, SYS_MPROTECT = 226, SYS_MINCORE = 232, SYS_WAIT4 = 260,
       SYS_PRLIMIT = 261, SYS_MEMFD = 279 };
enum { CONTEXT_PC = 55 };
#endif

/* System calls */

#if defined(__x86_64__)
static word call(word number, word a, word b, word c, word d, word e, word f)
{
    register word r10 __asm__("r10") = d;
    register word r8 __asm__("r8") = e;
    register word r9 __asm__("r9") = f;
    word reply;
    __asm__ volatile("syscall" : "=a"(reply) : "a"(number), "D"(a), "S"(b), "d"(c), "r"(r10), "r"(r8), "r"(r9) : "rcx", "r11", "memory");
    return reply;
}
#else
static word call(word number, word a, word b, word c, word d, word e, word f)
{
    register word x8 __asm__("x8") = number;
    register word x0 __asm__("x0") = a;
    register word x1 __asm__("x1") = b;
    register word x2 __asm__("x2") = c;
    register word x3 __asm__("x3") = d;
    register word x4 __asm__("x4") = e;
    register word x5 __asm__("x5") = f;
    __asm__ volatile("svc #0" : "+r"(x0) : "r"(x8), "r"(x1), "r"(x2), "r"(x3), "r"(x4), "r"(x5) : "memory");
    return x0;
}
#endif

#define CALL(number, a, b, c) call(number, (word)(a), (word)(b), (word)(c), 0, 0, 0)

/* Where the program begins: with the stack that the system gave it as the argument, on one of its own. */
char own_stack[1 << 16] __attribute__((aligned(16)));
void begin(word *stack);

#if defined(__x86_64__)
__asm__(".text\n"
        ".globl _start\n"
        "_start:\n"
        "    mov %rsp, %rdi\n"
        "    lea own_stack+65536(%rip), %rsp\n"
        "    call begin\n");
#else
__asm__(".text\n"
        ".globl _start\n"
        "_start:\n"
        "    mov x0, sp\n"
        "    adrp x9, own_stack+65536\n"
        "    add x9, x9, :lo12:own_stack+65536\n"
        "    mov sp, x9\n"
        "    bl begin\n");
#endif

/* Accesses */

word resume_stack;
void access(word address, word how); /* reads (0), writes (1) or executes (2) */
void resume(void); /* where a handler goes on, which ends the access */
void restore(void);

/* A write puts a zero, so that all memory of a trace is zeros, as it was. On x86-64 to execute zeros is a write through rax, which
   here is the address of `access` itself: that is refused, and tells that the instruction was fetched. On aarch64 they are no
   instruction at all. */
#if defined(__x86_64__)
__asm__(".text\n"
        ".globl access, resume, restore\n"
        "access:\n"
        "    mov %rsp, resume_stack(%rip)\n"
        "    cmp $1, %rsi\n"
        "    je 1f\n"
        "    ja 2f\n"
        "    movb (%rdi), %al\n"
        "    ret\n"
        "1:  movb $0, (%rdi)\n"
        "    ret\n"
        "2:  lea access(%rip), %rax\n"
        "    lea resume(%rip), %rcx\n"
        "    push %rcx\n"
        "    mov %rdi, %rdx\n"
        "    xor %edi, %edi\n"
        "    xor %esi, %esi\n"
        "    jmp *%rdx\n"
        "resume:\n"
        "    mov resume_stack(%rip), %rsp\n"
        "    ret\n"
        "restore:\n"
        "    mov $15, %eax\n" /* rt_sigreturn */
        "    syscall\n");
#else
__asm__(".text\n"
        ".globl access, resume, restore\n"
        "access:\n"
        "    adrp x9, resume_stack\n"
        "    add x9, x9, :lo12:resume_stack\n"
        "    stp x29, x30, [sp, #-96]!\n"
        "    stp x19, x20, [sp, #16]\n"
        "    stp x21, x22, [sp, #32]\n"
        "    stp x23, x24, [sp, #48]\n"
        "    stp x25, x26, [sp, #64]\n"
        "    stp x27, x28, [sp, #80]\n"
        "    mov x10, sp\n"
        "    str x10, [x9]\n"
        "    cmp x1, #1\n"
        "    b.eq 1f\n"
        "    b.hi 2f\n"
        "    ldrb w0, [x0]\n"
        "    b 3f\n"
        "1:  strb wzr, [x0]\n"
        "    b 3f\n"
        "2:  br x0\n"
        "resume:\n"
        "    adrp x9, resume_stack\n"
        "    ldr x10, [x9, :lo12:resume_stack]\n"
        "    mov sp, x10\n"
        "3:  ldp x19, x20, [sp, #16]\n"
        "    ldp x21, x22, [sp, #32]\n"
        "    ldp x23, x24, [sp, #48]\n"
        "    ldp x25, x26, [sp, #64]\n"
        "    ldp x27, x28, [sp, #80]\n"
        "    ldp x29, x30, [sp], #96\n"
        "    ret\n"
        "restore:\n"
        "    mov x8, #139\n" /* rt_sigreturn */
        "    svc #0\n");
#endif
