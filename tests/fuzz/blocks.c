/* Coverage of the archive as it is delivered, which carries no instrumentation: a breakpoint stands at each basic block of its
 * functions (blocks.txt beside the program, made by build.sh). The first time a block runs, the breakpoint is taken away and the
 * block's counter set, so that the input counts as new. What the subjects see counts as new as well (seen). */
/* SPDX-License-Identifier: LicenseRef-Wengeludo */
#define _GNU_SOURCE
#include <signal.h>
#include <stdio.h>
#include <stdlib.h>
#include <sys/mman.h>
#include <ucontext.h>

#include "target.h"

enum { MOST_BLOCKS = 7168, PAGE = 4096 };

__attribute__((section("__libfuzzer_extra_counters"))) static uint8_t counters[MOST_BLOCKS + COUNTERS];
static struct { uint8_t *at; uint8_t code; } blocks[MOST_BLOCKS];
static int block_count;

void fail(const char *what)
{
    fprintf(stderr, "fuzz target: %s\n", what);
    abort();
}

void seen(size_t place)
{
    if (place >= COUNTERS)
        fail("a counter past the last");
    counters[MOST_BLOCKS + place] = 1;
}

static void on_breakpoint(int signal, siginfo_t *info, void *context)
{
    (void)signal;
    (void)info;
    greg_t *rip = &((ucontext_t *)context)->uc_mcontext.gregs[REG_RIP];
    uint8_t *at = (uint8_t *)*rip - 1;
    int low = 0, high = block_count - 1;
    while (low <= high) {
        int middle = (low + high) / 2;
        if (blocks[middle].at == at) {
            *at = blocks[middle].code;
            counters[middle] = 1;
            *rip -= 1;
            return;
        }
        if (blocks[middle].at < at)
            low = middle + 1;
        else
            high = middle - 1;
    }
    abort();
}

/* How much of the archive ran; the blocks that did not, by address. */
static void summary(void)
{
    int ran = 0;
    for (int i = 0; i < block_count; i++)
        ran += *blocks[i].at == blocks[i].code;
    fprintf(stderr, "fuzz target: %d of %d basic blocks ran\n", ran, block_count);
    for (int i = 0; i < block_count; i++)
        if (*blocks[i].at != blocks[i].code)
            fprintf(stderr, "not run: %p\n", (void *)blocks[i].at);
}

static void read_blocks(void)
{
    FILE *list = fopen(BLOCKS, "r");
    if (list == NULL)
        fail("no " BLOCKS ": build with tests/fuzz/build.sh");
    unsigned long at;
    while (fscanf(list, "%lx", &at) == 1) {
        if (block_count == MOST_BLOCKS)
            fail("more basic blocks than there are counters");
        blocks[block_count++].at = (uint8_t *)at;
    }
    fclose(list);
}

void watch_blocks(void)
{
    read_blocks();
    struct sigaction action = {.sa_sigaction = on_breakpoint, .sa_flags = SA_SIGINFO};
    sigaction(SIGTRAP, &action, NULL);
    for (int i = 0; i < block_count; i++) {
        uintptr_t page = (uintptr_t)blocks[i].at & ~(uintptr_t)(PAGE - 1);
        if (mprotect((void *)page, 2 * PAGE, PROT_READ | PROT_WRITE | PROT_EXEC) != 0)
            fail("the code's pages cannot be written");
        blocks[i].code = *blocks[i].at;
        *blocks[i].at = 0xCC;
    }
    fprintf(stderr, "fuzz target: %d basic blocks watched\n", block_count);
    atexit(summary);
}
