/* How much stack each call takes, and what the first call in a fresh thread costs.
 *
 *     ./archive
 *     cc -O2 -Iinclude examples/stack.c target/native/libsam_header.a -lpthread -o target/stack
 *     target/stack
 *
 * Every call is made in a thread whose stack is painted, of 4 MiB; what is no longer painted afterwards was used. Then it is made again in a thread that
 * has just the room that include/sam_header.h promises, with 64 KiB for the thread itself. The exit status is 1 if a call takes more than is promised. */
#define _GNU_SOURCE
#include <pthread.h>
#include <stdio.h>
#include <stdlib.h>
#include <string.h>
#include <sys/mman.h>
#include <time.h>

#include "sam_header.h"

enum { PAINT = 0xA5, LARGE = 4 << 20, KIB = 1024, SLOTS = 1 << 18, NUMBERS = 1 << 16 };

static uint8_t *text, *turned, *catalogue, *binary, *out;
static uint8_t *faulty; /* the text and a line that is refused: carrying on over a text without one is tidying */
static size_t text_len, faulty_len, catalogue_len, binary_len, out_len;
static uint32_t *table, *work;
static struct sam_header_node nodes[1024];
static uint64_t answer;

static void do_nothing(void) { answer = 0; }
static void do_read(void) { answer = sam_header_read(text, text_len, out, out_len); }
static void do_check(void) { answer = sam_header_check(text, text_len, catalogue, catalogue_len); }
static void do_count(void) { answer = sam_header_count(text, text_len, catalogue, catalogue_len, 2); }
static void do_key(void) { answer = sam_header_key(text, text_len, catalogue, catalogue_len, 4, 0); }
static void do_field(void) { answer = sam_header_field(text, text_len, catalogue, catalogue_len, 4, 0, 'P', 'N'); }
static void do_find(void) { answer = sam_header_find(text, text_len, catalogue, catalogue_len, 2, (const uint8_t *)"c0", 2); }
static void do_references(void) { answer = sam_header_references(text, text_len, catalogue, catalogue_len, table, NUMBERS); }
static void do_tidy(void) { answer = sam_header_tidy(text, text_len, out, out_len); }
static void do_carry_on(void) { answer = sam_header_carry_on(faulty, faulty_len, out, out_len, table, NUMBERS); }
static void do_faults(void) { answer = sam_header_faults(text, text_len, table, NUMBERS); }
static void do_binary_out(void) { answer = sam_header_binary_out(text, text_len, out, out_len); }
static void do_binary_in(void) { answer = sam_header_binary_in(binary, binary_len, out, out_len); }
static void do_text_len(void) { answer = sam_header_text_len(text, text_len); }
static void do_binary_len(void) { answer = sam_header_binary_len(binary, binary_len); }
static void do_roots(void) { answer = sam_header_roots(text, text_len, catalogue, catalogue_len, table, 1024); }
static void do_leaves(void) { answer = sam_header_leaves(text, text_len, catalogue, catalogue_len, table, 1024); }
static void do_leaves_by_table(void) { answer = sam_header_leaves_by_table(text, text_len, catalogue, catalogue_len, nodes, 1024, table, 1024); }
static void do_prune(void) { answer = sam_header_prune(text, text_len, catalogue, catalogue_len, (const uint32_t[]){0}, 1, out, out_len); }
static void do_add(void) {
    answer = sam_header_add(text, text_len, catalogue, catalogue_len, (const uint8_t *)"x", 1, (const uint8_t *)"\tPN:y", 5, out, out_len);
}
static void do_names(void) {
    uint64_t inspected;
    answer = sam_header_names(text, text_len, catalogue, catalogue_len, (const uint8_t *)"c1\nc2", 5, work, SLOTS, table, 10, &inspected);
}
/* A merge of a header with the one that has its references the other way round. */
static void do_judge_merge(void) {
    const uint32_t own[] = {0};
    answer = sam_header_judge_merge(text, text_len, turned, text_len, text, text_len, own, 1, own, 1);
}
static void do_read_with(void) { answer = sam_header_read_with(text, text_len, out, out_len, work, SLOTS); }
static void do_check_with(void) { answer = sam_header_check_with(text, text_len, catalogue, catalogue_len, work, SLOTS); }
static uint8_t seal[32];
static void do_seal(void) { answer = sam_header_seal(text, text_len, out, out_len, seal); }
static void do_check_sealed(void) { answer = sam_header_check_sealed(text, text_len, catalogue, catalogue_len, seal, out, out_len); }
static void do_tidy_with(void) { answer = sam_header_tidy_with(text, text_len, out, out_len, work, SLOTS); }
static void do_carry_on_with(void) { answer = sam_header_carry_on_with(faulty, faulty_len, out, out_len, table, NUMBERS, work, SLOTS); }

/* What the header promises, in KiB: for texts of at most 256 KiB, and for longer ones. */
static const struct {
    const char *name;
    void (*call)(void);
    int small, large;
} calls[] = {
    {"none", do_nothing, 1, 1},
    {"read", do_read, 64, 900},
    {"check", do_check, 64, 900},
    {"count", do_count, 64, 900},
    {"key", do_key, 64, 900},
    {"field", do_field, 64, 900},
    {"find", do_find, 64, 900},
    {"references", do_references, 64, 900},
    {"tidy", do_tidy, 64, 900},
    {"carry_on", do_carry_on, 64, 900},
    {"faults", do_faults, 136, 912},
    {"binary_out", do_binary_out, 64, 900},
    {"binary_in", do_binary_in, 64, 900},
    {"text_len", do_text_len, 64, 64},
    {"binary_len", do_binary_len, 64, 64},
    {"roots", do_roots, 64, 900},
    {"leaves", do_leaves, 64, 900},
    {"leaves_by_table", do_leaves_by_table, 80, 900},
    {"names", do_names, 64, 900},
    {"add", do_add, 72, 900},
    {"prune", do_prune, 64, 900},
    {"judge_merge", do_judge_merge, 208, 900},
    {"seal", do_seal, 64, 900},
    {"check_sealed", do_check_sealed, 64, 900},
    {"read_with", do_read_with, 64, 64},
    {"check_with", do_check_with, 64, 64},
    {"tidy_with", do_tidy_with, 64, 64},
    {"carry_on_with", do_carry_on_with, 64, 64},
};

static void *run(void *call) {
    (*(void (**)(void))call)();
    return NULL;
}

static void in_thread(void (*call)(void), void *stack, size_t size) {
    pthread_attr_t attr;
    pthread_t thread;
    pthread_attr_init(&attr);
    pthread_attr_setstack(&attr, stack, size);
    if (pthread_create(&thread, &attr, run, &call)) abort();
    pthread_join(thread, NULL);
    pthread_attr_destroy(&attr);
}

static void *fresh_stack(size_t size) { return mmap(NULL, size, PROT_READ | PROT_WRITE, MAP_PRIVATE | MAP_ANONYMOUS | MAP_STACK, -1, 0); }

/* How many bytes of a painted stack a call uses. */
static size_t used(void (*call)(void)) {
    uint8_t *stack = fresh_stack(LARGE);
    size_t untouched = 0;
    memset(stack, PAINT, LARGE);
    in_thread(call, stack, LARGE);
    while (untouched < LARGE && stack[untouched] == PAINT) untouched++;
    munmap(stack, LARGE);
    return LARGE - untouched;
}

static double now(void) {
    struct timespec t;
    clock_gettime(CLOCK_MONOTONIC, &t);
    return t.tv_sec * 1e6 + t.tv_nsec / 1e3;
}

static double times[2];
static void (*timed)(void);

static void call_twice(void) {
    for (int i = 0; i < 2; i++) {
        double before = now();
        timed();
        double took = now() - before;
        if (took < times[i]) times[i] = took;
    }
}

static void make(int lines, const char *fields) {
    text_len = (size_t)sprintf((char *)text, "@HD\tVN:1.6\n@PG\tID:a\tPN:p\n");
    size_t at = text_len;
    memcpy(turned, text, text_len);
    for (int i = 0; i < lines; i++) text_len += (size_t)sprintf((char *)text + text_len, "@SQ\tSN:c%d\tLN:5%s\n", i, fields);
    for (int i = lines; i-- > 0;) at += (size_t)sprintf((char *)turned + at, "@SQ\tSN:c%d\tLN:5%s\n", i, fields);
    memcpy(faulty, text, text_len);
    faulty_len = text_len + (size_t)sprintf((char *)faulty + text_len, "@XX\n");
    catalogue_len = sam_header_read(text, text_len, catalogue, out_len);
    binary_len = sam_header_binary_out(text, text_len, binary, out_len);
}

int main(void) {
    static const char *fields = "\tM5:f98db672eb0993dcfdabafe2a882905c\tUR:file:/reference/assembly.fa\tAS:assembly";
    static const struct { int lines; int wide; } texts[] = {{1, 0}, {3366, 0}, {20000, 1}};
    int status = 0;
    out_len = 16 << 20;
    text = malloc(16 << 20), turned = malloc(16 << 20), faulty = malloc(16 << 20), catalogue = malloc(out_len), binary = malloc(out_len), out = malloc(out_len);
    table = malloc(NUMBERS * sizeof *table), work = calloc(SLOTS, sizeof *work);
    for (size_t t = 0; t < sizeof texts / sizeof *texts; t++) {
        make(texts[t].lines, texts[t].wide ? fields : "");
        printf("%d SQ lines, %zu bytes: KiB of stack\n", texts[t].lines, text_len);
        for (size_t i = 0; i < sizeof calls / sizeof *calls; i++) {
            int promised = text_len <= 262144 ? calls[i].small : calls[i].large;
            size_t kib = (used(calls[i].call) + KIB - 1) / KIB;
            size_t room = ((size_t)promised + 64) * KIB;
            void *stack = fresh_stack(room);
            printf("  %-16s %4zu of %d\n", calls[i].name, kib, promised), fflush(stdout);
            if (answer >> 63) printf("  %s: refused %u\n", calls[i].name, SAM_HEADER_NUMBER(answer)), status = 1;
            in_thread(calls[i].call, stack, room);
            munmap(stack, room);
            if (i > 0 && kib > (size_t)promised + 8) status = 1; /* the thread itself takes some */
        }
    }
    static const struct { const char *name; void (*call)(void); } firsts[] = {{"read", do_read}, {"leaves", do_leaves}, {"add", do_add}};
    make(25, fields);
    for (size_t t = 0; t < sizeof firsts / sizeof *firsts; t++) {
        timed = firsts[t].call;
        times[0] = times[1] = 1e9;
        for (int i = 0; i < 200; i++) {
            size_t room = (2 << 20) + (size_t)(i % 7) * 262144;
            void *stack = fresh_stack(room);
            in_thread(call_twice, stack, room);
            munmap(stack, room);
        }
        printf("25 SQ lines: the first %s in a fresh thread %.1f us, the second %.1f us (best of 200)\n", firsts[t].name, times[0], times[1]);
    }
    return status;
}
