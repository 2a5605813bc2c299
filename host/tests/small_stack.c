#define _GNU_SOURCE
#include "small_stack.h"

#include <setjmp.h>
#include <signal.h>
#include <stdio.h>
#include <stdlib.h>
#include <string.h>
#include <sys/mman.h>
#include <ucontext.h>

/* What cannot be touched below the stack: so much that no frame steps over it. */
enum { UNTOUCHABLE = 1 << 20 };

/* The handler's own stack. */
enum { HANDLER_STACK = 1 << 16 };

/* The lowest byte of the small stack. */
static uint8_t *stack;

/* The call that is made there. */
static struct {
    archive_call *call;
    const uint8_t *bytes;
    size_t length;
    uint64_t answer;
} job;

static ucontext_t caller;
static ucontext_t callee;
static sigjmp_buf overflow;

static void stop(const char *what)
{
    perror(what);
    exit(EXIT_FAILURE);
}

/* A fault below the stack ends the call. Any other is no matter of the stack: it ends the program,
 * as it would with no handler. */
static void on_fault(int number, siginfo_t *info, void *context)
{
    const uint8_t *at = info->si_addr;
    (void)context;
    if (at < stack && stack - at <= UNTOUCHABLE)
        siglongjmp(overflow, 1);
    signal(number, SIG_DFL);
}

static void prepare_handler(void)
{
    static uint8_t room[HANDLER_STACK];
    const stack_t handler_stack = {.ss_sp = room, .ss_size = sizeof room};
    struct sigaction action = {.sa_sigaction = on_fault,
                               .sa_flags = SA_SIGINFO | SA_ONSTACK | SA_NODEFER};
    sigemptyset(&action.sa_mask);
    if (sigaltstack(&handler_stack, NULL) != 0 || sigaction(SIGSEGV, &action, NULL) != 0)
        stop("the handler of faults");
}

/* Maps the stack above what cannot be touched. */
static void prepare(void)
{
    uint8_t *low =
        mmap(NULL, UNTOUCHABLE + SMALL_STACK, PROT_NONE, MAP_PRIVATE | MAP_ANONYMOUS, -1, 0);
    if (low == MAP_FAILED || mprotect(low + UNTOUCHABLE, SMALL_STACK, PROT_READ | PROT_WRITE) != 0)
        stop("the small stack");
    stack = low + UNTOUCHABLE;
    prepare_handler();
}

static void make_call(void)
{
    job.answer = job.call(job.bytes, job.length);
}

/* Makes the call on the small stack; whether it went past its end. */
static bool overflows(void)
{
    if (sigsetjmp(overflow, 0) != 0)
        return true;
    getcontext(&callee);
    callee.uc_stack.ss_sp = stack;
    callee.uc_stack.ss_size = SMALL_STACK;
    callee.uc_link = &caller;
    makecontext(&callee, make_call, 0);
    swapcontext(&caller, &callee);
    return false;
}

/* The bytes from the top to the lowest one that is not the pattern any more; whole blocks of the
 * pattern are passed at once. */
static size_t used_of(uint8_t pattern)
{
    uint8_t block[512];
    size_t at = 0;
    memset(block, pattern, sizeof block);
    while (at < SMALL_STACK && memcmp(stack + at, block, sizeof block) == 0)
        at += sizeof block;
    while (at < SMALL_STACK && stack[at] == pattern)
        at++;
    return SMALL_STACK - at;
}

/* Twice, on two patterns: a byte that is written as one of them is seen by the other. */
struct small_run run_on_small_stack(archive_call *call, const uint8_t *bytes, size_t length)
{
    static const uint8_t patterns[] = {0xA5, 0x5A};
    struct small_run run = {false, 0, 0};
    if (stack == NULL)
        prepare();
    job.call = call;
    job.bytes = bytes;
    job.length = length;
    for (size_t i = 0; i < sizeof patterns && !run.overflowed; i++) {
        memset(stack, patterns[i], SMALL_STACK);
        run.overflowed = overflows();
        size_t used = used_of(patterns[i]);
        run.used = used > run.used ? used : run.used;
        run.answer = job.answer;
    }
    return run;
}

static uint64_t do_nothing(const uint8_t *bytes, size_t length)
{
    (void)bytes;
    return length;
}

size_t small_stack_overhead(void)
{
    return run_on_small_stack(do_nothing, NULL, 0).used;
}
