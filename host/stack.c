/*
 * stack: how much of the stack each call needs. Each is made on a stack of its own that was filled with one byte; what is still that byte
 * afterwards, from the far end, was not needed. Prints the most of each call.
 * Exit status: 0; 1 where a call needs more than the 16 KiB of the header, or is refused; 2 where writing fails.
 */
#include "landovireph_table.h"

#include <stdio.h>
#include <stdlib.h>
#include <string.h>
#include <ucontext.h>

#define ROOM 65536
#define MOST 16384
#define UNUSED 0xA5
#define N 4104
#define ELASTIC_N 1024

static uint8_t stack[ROOM];
static ucontext_t here, there;
static struct landovireph_table table;
static uint8_t words[8 * N], flags[N], marks[N], order[8 * N], identities[8 * N], slots[8 * N], image[17 * N];
static size_t image_bytes;
static uint64_t result;

static void open_table(void)
{
    result = landovireph_table_open(&table, N, 3, 2024, 8, words, flags);
}

static void insert(void)
{
    result = landovireph_table_insert(&table, 7);
}

static void search(void)
{
    result = landovireph_table_search(&table, 7);
}

static void place_all(void)
{
    result = landovireph_table_place_all(&table, identities, slots, N - N / 8 - 1);
}

/* Past the maximum, every slot of a path is read. */
static void search_on(void)
{
    uint64_t identity;
    for (identity = 0; identity < 1000; identity++)
        result = landovireph_table_search(&table, identity << 40);
}

static void check(void)
{
    result = landovireph_table_check(&table, marks, order);
}

static void write_image(void)
{
    result = landovireph_table_write(&table, words, 64, image, sizeof image);
    image_bytes = (size_t)landovireph_answer_image_bytes(table.answer);
}

static void load(void)
{
    result = landovireph_table_load(&table, image, image_bytes);
}

static void elastic_open(void)
{
    result = landovireph_table_elastic_open(&table, ELASTIC_N, 3, 2024, 8, 8, 8192, 1000000, words, flags);
}

static void elastic_insert(void)
{
    uint64_t identity;
    for (identity = 0; identity < ELASTIC_N / 2; identity++)
        result = landovireph_table_elastic_insert(&table, identity);
}

static void elastic_query(void)
{
    result = landovireph_table_elastic_query(&table, 7);
}

static void make_call(void (*call)(void))
{
    memset(stack, UNUSED, sizeof stack);
    getcontext(&there);
    there.uc_stack.ss_sp = stack;
    there.uc_stack.ss_size = sizeof stack;
    there.uc_link = &here;
    makecontext(&there, call, 0);
    swapcontext(&here, &there);
}

static void measure(const char *name, void (*call)(void))
{
    size_t needed = ROOM;
    make_call(call);
    while (needed != 0 && stack[ROOM - needed] == UNUSED)
        needed--;
    printf("%s %zu\n", name, needed);
    if (result == 0 && needed <= MOST)
        return;
    fprintf(stderr, "stack: %s answers %s and needs %zu bytes\n", name, landovireph_refusal_name(result), needed);
    exit(1);
}

int main(void)
{
    uint64_t k;
    for (k = 0; k < N; k++)
        landovireph_put(identities, 8 * k, k * 0x9E3779B97F4A7C15u);
    measure("funnel_open", open_table);
    measure("funnel_insert", insert);
    measure("funnel_search", search);
    measure("funnel_place_all", place_all);
    measure("funnel_search of many", search_on);
    measure("funnel_check", check);
    measure("funnel_write", write_image);
    measure("funnel_load", load);
    measure("elastic_open", elastic_open);
    measure("elastic_insert", elastic_insert);
    measure("elastic_query", elastic_query);
    return fflush(stdout) != 0 || ferror(stdout) ? 2 : 0;
}
