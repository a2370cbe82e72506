/*
 * Open examines every block: the instructions of plaid_open do not depend on which block opens. Each call is made in a
 * process of its own, which is run one instruction at a time (ptrace) and the instructions counted.
 *
 *   steps L..       for each L, 16 blocks: only the first opens, only the second, and so on; none; all
 *
 * A block is made by its definition: 00 02, pad bytes that are not 0, 00, KeySetID, DivData, RND1, RND1. One that does
 * not open has another last byte, in the second RND1, and takes the same work. What a block takes is the difference
 * between 16 and 8 of them. Which one opens has to make less than a quarter of that, so that no block is left out;
 * whether one, none or all open, where also a result is returned or none, less than one block.
 */
#define _GNU_SOURCE
#include "plaid.h"

#include <sched.h>
#include <signal.h>
#include <stdio.h>
#include <stdlib.h>
#include <string.h>
#include <sys/mman.h>
#include <sys/ptrace.h>
#include <sys/wait.h>
#include <unistd.h>

#define NONE (PLAID_LIST_IDS + 1)
#define ALL (PLAID_LIST_IDS + 2)

static const char div_data[] = "CARD-00000004711";
static unsigned passed, failed;

static void check(bool ok, size_t key_length, const char *what)
{
    if (ok) {
        passed++;
        return;
    }
    failed++;
    printf("FAILED: L = %zu: %s\n", key_length, what);
}

/* What the two processes share: whether the call is being made, and what it returned. */
static volatile struct {
    bool inside;
    plaid_opened opened;
} *shared;

static plaid_ids ids;
static uint8_t blocks[PLAID_LIST_IDS * PLAID_BLOCK];

static uint8_t rnd1_byte(size_t place, size_t i)
{
    return (uint8_t)(29 * place + 7 * i + 3);
}

static void make_block(size_t key_length, size_t place, bool opens)
{
    uint8_t *at = blocks + place * PLAID_BLOCK;
    *at++ = 0x00;
    *at++ = 0x02;
    for (size_t i = 0; i < PLAID_FRESH_PADS(key_length); i++)
        *at++ = (uint8_t)(1 + (place + i) % 255);
    *at++ = 0x00;
    *at++ = (uint8_t)(ids.ids[place].value >> 8);
    *at++ = (uint8_t)ids.ids[place].value;
    memcpy(at, div_data, PLAID_DIV_DATA);
    at += PLAID_DIV_DATA;
    for (size_t i = 0; i < 2 * key_length; i++)
        *at++ = rnd1_byte(place, i % key_length);
    if (!opens)
        at[-1] ^= 0x01;
}

/* So many blocks, of which only the one at `opens` opens; or NONE, or ALL. */
static void make_blocks(size_t key_length, size_t count, size_t opens)
{
    ids.count = count;
    for (size_t i = 0; i < count; i++) {
        ids.ids[i].value = (uint16_t)(0x0101 * (i + 1));
        make_block(key_length, i, opens == i || opens == ALL);
    }
}

static __attribute__((noinline)) void call(size_t key_length)
{
    shared->inside = true;
    plaid_opened opened = plaid_open(key_length, ids, blocks, ids.count * PLAID_BLOCK);
    shared->inside = false;
    memcpy((void *)&shared->opened, &opened, sizeof opened);
}

static void give_up(const char *why)
{
    printf("FAILED: %s\n0 passed, 1 failed\n", why);
    exit(1);
}

/* The next stop of the process, which has to be by this signal. False where the process has ended. */
static bool stopped(pid_t process, int by)
{
    int status;
    if (waitpid(process, &status, 0) != process)
        give_up("a process was lost");
    if (WIFEXITED(status) && WEXITSTATUS(status) == 0)
        return false;
    if (!WIFSTOPPED(status) || WSTOPSIG(status) != by)
        give_up("a call ended by a signal, or could not be traced");
    return true;
}

/* How many instructions the call takes, from the store before it to the one after it. */
static long count_call(size_t key_length)
{
    pid_t process = fork();
    if (process == 0) {
        if (ptrace(PTRACE_TRACEME, 0, NULL, NULL) != 0 || raise(SIGSTOP) != 0)
            _exit(1);
        call(key_length);
        _exit(0);
    }
    if (process < 0 || !stopped(process, SIGSTOP))
        give_up("no process could be traced");
    ptrace(PTRACE_SETOPTIONS, process, NULL, PTRACE_O_EXITKILL);
    long steps = 0;
    while (steps == 0 || shared->inside) {
        if (ptrace(PTRACE_SINGLESTEP, process, NULL, NULL) != 0 || !stopped(process, SIGTRAP))
            give_up("a process could not be run by steps");
        steps += shared->inside;
    }
    ptrace(PTRACE_CONT, process, NULL, NULL);
    if (stopped(process, 0))
        give_up("a process did not end");
    return steps;
}

/* Whether Open returned the first block that opens, or 15. */
static bool returned(size_t key_length, size_t opens)
{
    plaid_opened o;
    memcpy(&o, (void *)&shared->opened, sizeof o);
    size_t place = opens == ALL ? 0 : opens;
    if (opens == NONE)
        return o.number == PLAID_DECLINE_NONE_OPENS;
    bool ok = o.number == PLAID_DONE && o.place == place && o.id.value == ids.ids[place].value
        && memcmp(o.div_data, div_data, PLAID_DIV_DATA) == 0 && o.rnd1.length == key_length;
    for (size_t i = 0; ok && i < key_length; i++)
        ok = o.rnd1.bytes[i] == rnd1_byte(place, i);
    return ok;
}

static long count_case(size_t key_length, size_t count, size_t opens)
{
    make_blocks(key_length, count, opens);
    long steps = count_call(key_length);
    check(returned(key_length, opens), key_length, "another result than the first block that opens");
    return steps;
}

static long least(long a, long b)
{
    return a < b ? a : b;
}

static long most(long a, long b)
{
    return a > b ? a : b;
}

static void count_length(size_t key_length)
{
    long none = count_case(key_length, PLAID_LIST_IDS, NONE), all = count_case(key_length, PLAID_LIST_IDS, ALL);
    long half = count_case(key_length, PLAID_LIST_IDS / 2, NONE), block = (none - half) / (PLAID_LIST_IDS / 2);
    long low = count_case(key_length, PLAID_LIST_IDS, 0), high = low;
    for (size_t place = 1; place < PLAID_LIST_IDS; place++) {
        long steps = count_case(key_length, PLAID_LIST_IDS, place);
        low = least(low, steps);
        high = most(high, steps);
    }
    printf("open, L = %zu: %ld to %ld instructions where one block opens, %ld where none does, %ld where all do; "
           "%ld for a block\n", key_length, low, high, none, all, block);
    check(4 * (high - low) < block, key_length, "which block opens makes a difference");
    check(most(high, most(none, all)) - least(low, least(none, all)) < block, key_length,
        "how many blocks open makes a difference");
}

/* Both processes on one processor, where each step is quicker. */
static void stay_here(void)
{
    cpu_set_t here;
    CPU_ZERO(&here);
    CPU_SET(sched_getcpu(), &here);
    sched_setaffinity(0, sizeof here, &here);
}

int main(int argc, char **argv)
{
    shared = mmap(NULL, sizeof *shared, PROT_READ | PROT_WRITE, MAP_SHARED | MAP_ANONYMOUS, -1, 0);
    if (shared == MAP_FAILED)
        give_up("no memory to share");
    stay_here();
    for (int i = 1; i < argc; i++)
        count_length(strtoul(argv[i], NULL, 10));
    printf("%u passed, %u failed\n", passed, failed);
    return failed > 0 || passed == 0;
}
