#include <signal.h>
#include <stdio.h>
#include <stdlib.h>
#include <string.h>
#include <sys/mman.h>
#include <unistd.h>

#include "pages.h"

enum { NEAR = 64 };

/* ---- Yards ---- */

void *map(size_t size, int protection)
{
    void *at = mmap(NULL, size, protection, MAP_PRIVATE | MAP_ANONYMOUS | MAP_NORESERVE, -1, 0);
    if (at == MAP_FAILED) {
        perror("mmap");
        exit(2);
    }
    return at;
}

struct yard make_yard(size_t least)
{
    size_t page = (size_t)sysconf(_SC_PAGESIZE);
    size_t size = (least + page - 1) / page * page;
    uint8_t *all = map(size + 2 * page, PROT_NONE);
    if (mprotect(all + page, size, PROT_READ | PROT_WRITE) != 0) {
        perror("mprotect");
        exit(2);
    }
    return (struct yard){ all + page, size, map(size, PROT_READ | PROT_WRITE) };
}

/* ---- Slices ---- */

static struct slice lend(const struct yard *yard, size_t length, enum side side)
{
    struct slice s;
    size_t rest = yard->size - length;
    s.length = length;
    s.near_length = rest < NEAR ? rest : NEAR;
    s.at = side == AT_END ? yard->base + rest : yard->base;
    s.near = side == AT_END ? s.at - s.near_length : s.at + length;
    s.copy = yard->copy;
    return s;
}

static void keep(const struct slice *s)
{
    for (size_t i = 0; i < s->near_length; i++)
        s->near[i] = (uint8_t)(0x5A + 7 * i);
    memcpy(s->copy, s->at, s->length);
    memcpy(s->copy + s->length, s->near, s->near_length);
}

struct slice lend_content(const struct yard *yard, const uint8_t *content, size_t length, enum side side)
{
    struct slice s = lend(yard, length, side);
    if (length > 0)
        memcpy(s.at, content, length);
    keep(&s);
    return s;
}

struct slice lend_pattern(const struct yard *yard, size_t length, enum side side)
{
    static uint8_t turn;
    struct slice s = lend(yard, length, side);
    turn++;
    for (size_t i = 0; i < length; i++)
        s.at[i] = (uint8_t)(turn + 29 * i + (i >> 8));
    keep(&s);
    return s;
}

int kept_past(const struct slice *s, size_t changed)
{
    return memcmp(s->at + changed, s->copy + changed, s->length - changed) == 0
        && memcmp(s->near, s->copy + s->length, s->near_length) == 0;
}

int kept(const struct slice *s)
{
    return kept_past(s, 0);
}

/* ---- Faults ---- */

sigjmp_buf before_call;

static void on_fault(int number)
{
    siglongjmp(before_call, number);
}

void catch_faults(void)
{
    struct sigaction action;
    memset(&action, 0, sizeof action);
    action.sa_handler = on_fault;
    action.sa_flags = SA_NODEFER;
    sigaction(SIGSEGV, &action, NULL);
    sigaction(SIGBUS, &action, NULL);
}

int faults_at(const volatile uint8_t *at)
{
    if (sigsetjmp(before_call, 0) != 0)
        return 1;
    (void)*at;
    return 0;
}
