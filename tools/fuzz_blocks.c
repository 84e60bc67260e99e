/* Tells libFuzzer which code of the library was run, though the library isn't compiled for that. A breakpoint stands where each
 * straight piece of its code begins, until it is met: what an input met as the first one is new.
 *
 * BLOCKS of the environment names the file of tools/fuzz_blocks.py. Without it, on other processors, and where code can't be
 * written, nothing is told. */
#define _GNU_SOURCE
#include "fuzz.h"
#include <signal.h>
#include <stdio.h>
#include <stdlib.h>
#include <sys/mman.h>
#include <ucontext.h>

#ifdef __x86_64__
enum { MOST = 1 << 15, BREAKPOINT = 0xcc, PAGE = 4096 };
static uintptr_t places[MOST]; /* rising */
static uint8_t was[MOST];
static size_t count, met;
__attribute__((section("__libfuzzer_extra_counters"))) static uint8_t is_met[MOST];

static void meet(int number, siginfo_t *info, void *context) {
	greg_t *registers = ((ucontext_t *)context)->uc_mcontext.gregs;
	uintptr_t place = (uintptr_t)registers[REG_RIP] - 1;
	size_t low = 0, high = count;
	(void)number, (void)info;
	while (low < high) {
		size_t middle = (low + high) / 2;
		if (places[middle] < place) low = middle + 1; else high = middle;
	}
	if (low == count || places[low] != place) abort();
	*(volatile uint8_t *)place = was[low];
	is_met[low] = 1, met++;
	registers[REG_RIP] = (greg_t)place;
}

__attribute__((destructor)) static void tell(void) {
	if (count) fprintf(stderr, "blocks: %zu of %zu\n", met, count);
}

void find_blocks(void) {
	const char *name = getenv("BLOCKS");
	FILE *file = name ? fopen(name, "r") : NULL;
	struct sigaction how = { 0 };
	while (file && count < MOST && fscanf(file, "%lx", &places[count]) == 1) count++;
	if (file) fclose(file);
	if (!count) return;
	how.sa_sigaction = meet, how.sa_flags = SA_SIGINFO;
	uintptr_t first = places[0] & ~(uintptr_t)(PAGE - 1);
	if (mprotect((void *)first, places[count - 1] + 1 - first, PROT_READ | PROT_WRITE | PROT_EXEC) || sigaction(SIGTRAP, &how, NULL)) return;
	for (size_t i = 0; i < count; i++) {
		was[i] = *(uint8_t *)places[i];
		*(volatile uint8_t *)places[i] = BREAKPOINT;
	}
}
#else
void find_blocks(void) {}
#endif
