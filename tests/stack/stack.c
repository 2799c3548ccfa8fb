/* The stack is painted in one colour and then in another, so that a byte which happens to be written in one of them still shows. */
#include "stack.h"

int printf(const char *format, ...);
void exit(int status);
void *memset(void *place, int byte, size_t bytes);
void *mmap(void *place, size_t bytes, int access, int kind, int file, long from);
int mprotect(void *place, size_t bytes, int access);

enum { PAGE = 4096, NO_ACCESS = 0, READ_AND_WRITE = 3, PRIVATE_AND_UNNAMED = 0x22 };

static unsigned char *lowest;

void make_stack(void)
{
    unsigned char *all = mmap(0, STACK + 2 * PAGE, READ_AND_WRITE, PRIVATE_AND_UNNAMED, -1, 0);
    if (all == (unsigned char *)-1 || mprotect(all, PAGE, NO_ACCESS) != 0 || mprotect(all + PAGE + STACK, PAGE, NO_ACCESS) != 0) {
        printf("tests/stack: no memory for a stack\n");
        exit(1);
    }
    lowest = all + PAGE;
}

/* The stack pointer is kept in a register that a called function gives back as it was. */
static void call_on(unsigned char *top, void (*call)(void))
{
    __asm__ volatile("movq %%rsp, %%rbx\n\t"
                     "movq %0, %%rsp\n\t"
                     "callq *%1\n\t"
                     "movq %%rbx, %%rsp"
                     :
                     : "r"(top), "r"(call)
                     : "rbx", "rax", "rcx", "rdx", "rsi", "rdi", "r8", "r9", "r10", "r11", "xmm0", "xmm1", "xmm2", "xmm3", "xmm4", "xmm5",
                       "xmm6", "xmm7", "xmm8", "xmm9", "xmm10", "xmm11", "xmm12", "xmm13", "xmm14", "xmm15", "memory", "cc");
}

static size_t painted(int colour, void (*call)(void))
{
    memset(lowest, colour, STACK);
    call_on(lowest + STACK, call);
    size_t kept = 0;
    while (kept < STACK && lowest[kept] == colour) {
        kept++;
    }
    return STACK - kept;
}

/* The first call is made elsewhere: the loader's search for functions of the C library, made once, is not the library's. */
size_t stack_of(void (*call)(void))
{
    call();
    size_t first = painted(0xa5, call);
    size_t second = painted(0x5a, call);
    return first < second ? second : first;
}
