/*
 * What a program of `bench/arm` stands on: its start, its arguments, and writing, by system calls of Linux on ARM.
 *
 * The program `speed` was lowered for x86-64, where a length has 64 bits; so the functions that it calls take and give 64
 * bits here, too. newlib's exit calls `_fini`; its printf, which BearSSL's program alone uses, calls `_write` and `_sbrk`.
 */
#include <stdint.h>
#include <stdlib.h>

int main(int argc, char **argv);

static int count;
static char **words;

/* 4 is write, 248 is exit_group. */
static int call(int number, int first, const void *second, unsigned third)
{
	register int r7 __asm__("r7") = number;
	register int r0 __asm__("r0") = first;
	register const void *r1 __asm__("r1") = second;
	register unsigned r2 __asm__("r2") = third;
	__asm__ volatile("svc 0" : "+r"(r0) : "r"(r7), "r"(r1), "r"(r2) : "memory");
	return r0;
}

__attribute__((naked)) void _start(void)
{
	__asm__("mov r0, sp\n\tb begin");
}

__attribute__((used)) static void begin(int *stack)
{
	count = stack[0];
	words = (char **)(stack + 1);
	exit(main(count, words));
}

void _exit(int status)
{
	for (;;)
		call(248, status, NULL, 0);
}

void _fini(void)
{
}

int _write(int file, const void *bytes, unsigned n)
{
	return call(4, file, bytes, n);
}

void *_sbrk(int n)
{
	static char heap[1 << 16] __attribute__((aligned(8)));
	static int used;
	used += n;
	return heap + used - n;
}

int64_t write(int file, const void *bytes, uint64_t n)
{
	return _write(file, bytes, (unsigned)n);
}

uint64_t rattle_arg_count(void)
{
	return (uint64_t)count;
}

/* As the kit's: the argument's length, -1 where there is none, or -2 where it does not fit. Byte by byte, so that the count
   does not depend on where the argument lies. */
int64_t rattle_arg(uint64_t i, char *buffer, uint64_t room)
{
	if (i >= (uint64_t)count)
		return -1;
	uint64_t n = 0;
	for (const char *p = words[i]; *p; p++) {
		if (n == room)
			return -2;
		buffer[n++] = *p;
	}
	return (int64_t)n;
}

/* No call fails here, and no signal comes. */
void rattle_set_errno(int error)
{
	(void)error;
}

int rattle_errno(void)
{
	return 0;
}

int64_t __sysv_signal(int number, int64_t action)
{
	(void)number;
	return action;
}

int __xpg_strerror_r(int error, char *text, uint64_t room)
{
	(void)error;
	if (room > 0)
		*text = 0;
	return 0;
}
