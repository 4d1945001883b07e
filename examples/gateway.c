/* The engine as a metering gateway runs it: on a thread that has 16 KiB of stack in all, what the C library keeps there included.
 *
 *   gateway STACK INTERVAL [CORRECTION]        STACK in bytes, whole pages: 16384
 *
 * On such a thread it settles the files, copies the bytes that count for the last row and rewrites the interval file; then it does
 * the same on its ordinary stack, and answers and buffers have to be the same. A page below the stack and one above it cannot be
 * touched: a stack that is too small ends the program there (SIGSEGV). docs/GATEWAY.md says what a gateway has to give the engine.
 *
 * Built by tools/try-library; by hand: cc -Iinclude examples/gateway.c target/native/libabi.a -pthread -o gateway */
#define _DEFAULT_SOURCE
#include "wheatrudder.h"

#include <inttypes.h>
#include <pthread.h>
#include <stdio.h>
#include <stdlib.h>
#include <string.h>
#include <sys/mman.h>
#include <unistd.h>

/* A byte past the longest file: a longer one is refused all the same. */
#define MOST_BYTES (WHEATRUDDER_INTERVAL_LENGTH_PG(WHEATRUDDER_MOST_ROWS) + 1)

struct file {
    uint8_t bytes[MOST_BYTES];
    size_t length;
};

/* What one run makes of the files. */
struct work {
    uint64_t settled, copied, rewritten;
    uint8_t statement[WHEATRUDDER_STATEMENT_ROOM(WHEATRUDDER_MOST_ROWS)];
    uint8_t row[WHEATRUDDER_ROW_LENGTH];
    uint8_t again[WHEATRUDDER_INTERVAL_LENGTH_PG(WHEATRUDDER_MOST_ROWS)];
};

/* Files and buffers are lent to the engine, and none of them is on the stack. */
static struct file interval, correction;
static struct work on_gateway, on_desk;

static uint16_t last_id(const struct work *work)
{
    uint16_t rows = wheatrudder_number(work->settled) ? 0 : wheatrudder_statement_rows(work->statement);
    return rows ? wheatrudder_line_id(work->statement, rows - 1u) : 0;
}

static void *run(void *at)
{
    struct work *work = at;
    work->settled = wheatrudder_settle(interval.bytes, interval.length, correction.bytes, correction.length,
                                       work->statement, sizeof work->statement);
    work->copied = wheatrudder_row(interval.bytes, interval.length, correction.bytes, correction.length, last_id(work),
                                   work->row, sizeof work->row);
    work->rewritten = wheatrudder_rewrite(interval.bytes, interval.length, work->again, sizeof work->again);
    return NULL;
}

static void need(int holds, const char *what)
{
    if (holds)
        return;
    fprintf(stderr, "gateway: cannot %s\n", what);
    exit(2);
}

/* Runs on a thread with so many bytes of stack. Where the C library wants more for a thread (glibc on Arm wants 128 KiB), it is
 * told of more, and the part below these bytes cannot be touched. */
static void run_on_stack_of(size_t size, struct work *work)
{
    size_t page = (size_t)sysconf(_SC_PAGESIZE), least = (size_t)sysconf(_SC_THREAD_STACK_MIN);
    size_t told = size < least ? (least + page - 1) / page * page : size;
    need(size > 0 && size % page == 0, "make a stack that is not whole pages");
    uint8_t *map = mmap(NULL, page + told + page, PROT_NONE, MAP_PRIVATE | MAP_ANONYMOUS, -1, 0);
    need(map != MAP_FAILED, "map a stack");
    need(!mprotect(map + page + told - size, size, PROT_READ | PROT_WRITE), "open the stack");
    pthread_attr_t how;
    pthread_t thread;
    need(!pthread_attr_init(&how) && !pthread_attr_setstack(&how, map + page, told), "use the stack");
    need(!pthread_create(&thread, &how, run, work) && !pthread_join(thread, NULL), "run the thread");
    pthread_attr_destroy(&how);
    munmap(map, page + told + page);
}

static void read_file(const char *name, struct file *file)
{
    FILE *from = fopen(name, "rb");
    need(from != NULL, "open a file");
    file->length = fread(file->bytes, 1, sizeof file->bytes, from);
    need(!ferror(from), "read a file");
    fclose(from);
}

static void print_answer(const char *function, uint64_t answer)
{
    printf("%s %" PRIu32 " %" PRIu32 ", ", function, wheatrudder_number(answer), wheatrudder_value(answer));
}

int main(int count, char **words)
{
    if (count != 3 && count != 4) {
        fprintf(stderr, "usage: gateway STACK INTERVAL [CORRECTION]\n");
        return 2;
    }
    size_t size = (size_t)strtoul(words[1], NULL, 10);
    read_file(words[2], &interval);
    if (count == 4)
        read_file(words[3], &correction);
    run_on_stack_of(size, &on_gateway);
    run(&on_desk);
    print_answer("settle", on_gateway.settled);
    print_answer("row", on_gateway.copied);
    print_answer("rewrite", on_gateway.rewritten);
    if (wheatrudder_number(on_gateway.settled) == 0)
        printf("%u rows, %u rounds, %" PRIu32 " visits, ", wheatrudder_statement_rows(on_gateway.statement),
               wheatrudder_statement_rounds(on_gateway.statement), wheatrudder_statement_visits(on_gateway.statement));
    int same = memcmp(&on_gateway, &on_desk, sizeof on_gateway) == 0;
    printf("%s on a stack of %zu bytes\n", same ? "the same" : "NOT THE SAME", size);
    return !same;
}
