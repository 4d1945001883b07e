/* Runs each function of the library in a thread on a painted stack and prints how deep the paint is gone (tools/measure-stack);
 * fails above the bound.
 *
 *   stack BOUND INTERVAL
 *
 * A thread that calls nothing of the library shows what the thread itself takes, and is taken off. */
#define _GNU_SOURCE
#include "wheatrudder.h"

#include <pthread.h>
#include <stdio.h>
#include <stdlib.h>
#include <string.h>

enum { STACK = 1 << 20, PAINT = 0xC3 };

static uint8_t interval[WHEATRUDDER_INTERVAL_LENGTH_PG(WHEATRUDDER_MOST_ROWS)];
static size_t interval_length;
static uint8_t out[WHEATRUDDER_STATEMENT_ROOM(WHEATRUDDER_MOST_ROWS)];
static uint64_t answer;

static void *nothing(void *ignored) { return ignored; }

static void *settle(void *ignored)
{
    answer = wheatrudder_settle(interval, interval_length, NULL, 0, out, sizeof out);
    return ignored;
}

static void *row(void *ignored)
{
    answer = wheatrudder_row(interval, interval_length, NULL, 0, 1, out, sizeof out);
    return ignored;
}

static void *rewrite(void *ignored)
{
    answer = wheatrudder_rewrite(interval, interval_length, out, sizeof out);
    return ignored;
}

static size_t depth(void *(*run)(void *))
{
    uint8_t *stack = aligned_alloc(4096, STACK);
    pthread_attr_t how;
    pthread_t thread;
    size_t low = 0;
    if (!stack)
        exit(2);
    memset(stack, PAINT, STACK);
    pthread_attr_init(&how);
    if (pthread_attr_setstack(&how, stack, STACK) || pthread_create(&thread, &how, run, NULL) || pthread_join(thread, NULL))
        exit(2);
    while (low < STACK && stack[low] == PAINT)
        low++;
    free(stack);
    return STACK - low;
}

int main(int count, char **words)
{
    static const struct { const char *name; void *(*run)(void *); } functions[] = {
        {"wheatrudder_settle", settle}, {"wheatrudder_row", row}, {"wheatrudder_rewrite", rewrite}};
    FILE *file = count == 3 ? fopen(words[2], "rb") : NULL;
    if (!file)
        return 2;
    size_t bound = (size_t)strtoul(words[1], NULL, 10);
    interval_length = fread(interval, 1, sizeof interval, file);
    fclose(file);
    /* Once outside a thread, so that the loader has done its part; last the one whose statement is read below. */
    row(NULL), rewrite(NULL), settle(NULL);
    if (wheatrudder_number(answer) != 0)
        return 2;
    size_t own = depth(nothing);
    printf("%u rows, %u rounds; the thread itself takes %zu bytes\n", wheatrudder_statement_rows(out),
           wheatrudder_statement_rounds(out), own);
    int above = 0;
    for (size_t i = 0; i < sizeof functions / sizeof *functions; i++) {
        size_t deep = depth(functions[i].run) - own;
        above |= deep > bound;
        printf("%s: %zu bytes painted over%s\n", functions[i].name, deep, deep > bound ? ", ABOVE THE BOUND" : "");
        if (wheatrudder_number(answer) != 0)
            return 2;
    }
    return above;
}
