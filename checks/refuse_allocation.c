/*
 * Preloaded into a program, it refuses one of its allocations: the one whose number, counted from 1,
 * the variable REFUSE_ALLOCATION names. With REFUSE_ALLOCATION=0 it refuses none, and tells their
 * number on descriptor 9 at the end.
 */
#define _GNU_SOURCE
#include <dlfcn.h>
#include <stddef.h>
#include <stdio.h>
#include <stdlib.h>
#include <unistd.h>

static unsigned long calls;
static unsigned long refused;
static int ready;

static int refuse(void)
{
	if (!ready)
		return 0;
	calls++;
	return calls == refused;
}

void *malloc(size_t size)
{
	static void *(*next)(size_t);
	if (next == NULL)
		next = (void *(*)(size_t))dlsym(RTLD_NEXT, "malloc");
	return refuse() ? NULL : next(size);
}

void *realloc(void *block, size_t size)
{
	static void *(*next)(void *, size_t);
	if (next == NULL)
		next = (void *(*)(void *, size_t))dlsym(RTLD_NEXT, "realloc");
	return refuse() ? NULL : next(block, size);
}

__attribute__((constructor)) static void begin(void)
{
	const char *number = getenv("REFUSE_ALLOCATION");
	refused = number == NULL ? 0 : strtoul(number, NULL, 10);
	ready = 1;
}

__attribute__((destructor)) static void end(void)
{
	if (refused != 0)
		return;
	ready = 0;
	dprintf(9, "%lu\n", calls);
}
