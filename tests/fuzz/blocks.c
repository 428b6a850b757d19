/* Coverage of code that was not compiled for it: a breakpoint at the start of each basic block, which counts once and is taken out.
 * BLOCKS names a file with one address a line, in base sixteen. */
#define _GNU_SOURCE
#include <signal.h>
#include <stdint.h>
#include <stdio.h>
#include <stdlib.h>
#include <sys/mman.h>
#include <ucontext.h>

#define MOST 4096

__attribute__((section("__libfuzzer_extra_counters"))) static uint8_t counters[MOST];
static uint8_t *places[MOST];
static uint8_t codes[MOST];
static size_t count;
size_t blocks_reached;

static void on_breakpoint(int number, siginfo_t *info, void *context) {
    (void)info;
    greg_t *pc = &((ucontext_t *)context)->uc_mcontext.gregs[REG_RIP];
    uint8_t *place = (uint8_t *)(*pc - 1);
    for (size_t k = 0; k < count; k++) {
        if (places[k] == place) {
            *place = codes[k];
            counters[k] = 1;
            blocks_reached++;
            *pc = (greg_t)place;
            return;
        }
    }
    signal(number, SIG_DFL);
}

static void report(void) {
    fprintf(stderr, "basic blocks of the planner reached: %zu of %zu\n", blocks_reached, count);
    for (size_t k = 0; k < count; k++) {
        if (*places[k] == 0xCC && codes[k] != 0xCC) fprintf(stderr, "not reached: %p\n", (void *)places[k]);
    }
}

void blocks_watch(void) {
    const char *name = getenv("BLOCKS");
    FILE *list = name ? fopen(name, "r") : NULL;
    if (!list) {
        fprintf(stderr, "no list of blocks: BLOCKS must name it\n");
        exit(2);
    }
    struct sigaction action = {.sa_sigaction = on_breakpoint, .sa_flags = SA_SIGINFO | SA_NODEFER};
    sigaction(SIGTRAP, &action, NULL);
    unsigned long at;
    while (count < MOST && fscanf(list, "%lx", &at) == 1) {
        uint8_t *page = (uint8_t *)(at & ~4095ul);
        if (mprotect(page, 8192, PROT_READ | PROT_WRITE | PROT_EXEC) != 0) {
            perror("mprotect");
            exit(2);
        }
        places[count] = (uint8_t *)at;
        codes[count] = *places[count];
        *places[count] = 0xCC;
        count++;
    }
    fclose(list);
    atexit(report);
}
