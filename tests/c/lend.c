#define _GNU_SOURCE
#include "lend.h"

#include <signal.h>
#include <stdio.h>
#include <stdlib.h>
#include <string.h>
#include <sys/mman.h>
#include <unistd.h>

#include "draw.h"

enum { PAGE = 4096, AREA = 1 << 16, MARGIN = 64, MOST_LENT = 4, MOST_NAMES = 16, ANSWERS = 12, MOST_PRINTED = 10 };

/* An area between two pages that nobody may touch. Inputs are written through a second view of it. */
typedef struct {
    uint8_t *lent;
    uint8_t *own;
} Area;

static Area inputs[MOST_LENT];
static Area outputs[MOST_LENT];

typedef struct {
    const char *what;
    const uint8_t *lent;
    size_t len;
    uint8_t before[AREA];
} Input;

/* Beside the lent bytes, MARGIN bytes on the side where no guard page stands are watched too. */
typedef struct {
    const char *what;
    uint8_t *lent;
    size_t len;
    const uint8_t *watched;
    uint8_t before[AREA];
    _Alignas(8) uint8_t want[AREA];
} Output;

static struct {
    const char *name;
    const char *value_name;
    uint64_t value;
    int ins, outs;
    Input in[MOST_LENT];
    Output out[MOST_LENT];
} call;

static struct {
    const char *name;
    uint64_t answers[ANSWERS];
} seen[MOST_NAMES];

static uint64_t section_answers[ANSWERS];
static uint64_t calls, wrong;

static void *mapped(void *memory)
{
    if (memory == MAP_FAILED) {
        perror("mmap");
        exit(2);
    }
    return memory;
}

static uint8_t *view(int file, int protection)
{
    uint8_t *whole = mapped(mmap(NULL, AREA + 2 * PAGE, PROT_NONE, MAP_PRIVATE | MAP_ANONYMOUS, -1, 0));
    return mapped(mmap(whole + PAGE, AREA, protection, MAP_SHARED | MAP_FIXED, file, 0));
}

static Area make_area(int lent_protection)
{
    int file = memfd_create("lent", 0);
    if (file < 0 || ftruncate(file, AREA) != 0) {
        perror("memfd_create");
        exit(2);
    }
    Area area = {view(file, lent_protection), view(file, PROT_READ | PROT_WRITE)};
    close(file);
    return area;
}

static void print_bytes(const uint8_t *bytes, size_t len)
{
    for (size_t i = 0; i < len && i < 96; i++)
        printf(bytes[i] > 32 && bytes[i] < 127 ? "%c" : "<%02x>", bytes[i]);
    printf(len > 96 ? ".. (%zu bytes)\n" : " (%zu bytes)\n", len);
}

static void print_call(void)
{
    printf("%s\n", call.name);
    for (int i = 0; i < call.ins; i++) {
        printf("    %-8s ", call.in[i].what);
        print_bytes(call.in[i].before, call.in[i].len);
    }
    if (call.value_name != NULL)
        printf("    %-8s %llu\n", call.value_name, (unsigned long long)call.value);
    for (int i = 0; i < call.outs; i++)
        printf("    %-8s %zu bytes lent\n", call.out[i].what, call.out[i].len);
}

static void touched(int signal_number)
{
    (void)signal_number;
    printf("touched memory that wasn't lent to it, or wrote to an input: call %llu, ", (unsigned long long)calls + 1);
    print_call();
    fflush(stdout);
    _exit(1);
}

void lend_start(void)
{
    /* A call that used up the stack couldn't be reported on it. */
    static uint8_t spare_stack[1 << 16];
    stack_t stack = {.ss_sp = spare_stack, .ss_size = sizeof spare_stack};
    struct sigaction action = {.sa_handler = touched, .sa_flags = SA_ONSTACK};

    for (int i = 0; i < MOST_LENT; i++) {
        inputs[i] = make_area(PROT_READ);
        outputs[i] = make_area(PROT_READ | PROT_WRITE);
    }
    sigaltstack(&stack, NULL);
    sigaction(SIGSEGV, &action, NULL);
    sigaction(SIGBUS, &action, NULL);
}

void begin(const char *name)
{
    call.name = name;
    call.value_name = NULL;
    call.ins = 0;
    call.outs = 0;
}

void tell(const char *what, uint64_t value)
{
    call.value_name = what;
    call.value = value;
}

const void *lend(const char *what, const void *bytes, size_t len)
{
    Area area = inputs[call.ins];
    Input *in = &call.in[call.ins++];
    size_t at = one_in(4) ? 0 : AREA - len;
    if (len > 0) {
        memcpy(area.own + at, bytes, len);
        memcpy(in->before, bytes, len);
    }
    in->what = what;
    in->len = len;
    in->lent = len == 0 && one_in(2) ? NULL : area.lent + at;
    return in->lent;
}

void *take(const char *what, size_t len)
{
    Area area = outputs[call.outs];
    Output *out = &call.out[call.outs++];
    size_t at = one_in(4) ? 0 : AREA - len;
    out->what = what;
    out->len = len;
    out->watched = at == 0 ? area.lent : area.lent + at - MARGIN;
    fill_with_draws(out->before, len + MARGIN);
    memcpy(area.lent + (out->watched - area.lent), out->before, len + MARGIN);
    out->lent = area.lent + at;
    memcpy(out->want, out->before + (out->lent - out->watched), len);
    return len == 0 && one_in(2) ? NULL : out->lent;
}

void *want(int i)
{
    return call.out[i].want;
}

void differs(const char *text)
{
    printf("wrong: %s\n", text);
    if (++wrong == MOST_PRINTED)
        exit(end_tests());
}

/* What an output must hold: on a refusal what it held before, else plain C's answer with the rest as before. */
static const char *output_fault(const Output *out, bool refused)
{
    const uint8_t *before = out->before + (out->lent - out->watched);
    const uint8_t *must = refused ? before : out->want;
    for (size_t i = 0; i < out->len; i++)
        if (out->lent[i] != must[i])
            return refused ? "was written to by a refusal" : "holds something else";
    const uint8_t *margin = out->watched == out->lent ? out->lent + out->len : out->watched;
    for (size_t i = 0; i < MARGIN; i++)
        if (margin[i] != out->before[margin - out->watched + (ptrdiff_t)i])
            return "was written around";
    if (refused && memcmp(out->want, before, out->len) != 0)
        return "was written to by a refusal of plain C";
    return NULL;
}

static void report(const char *what, const char *fault, uint32_t got, uint32_t must)
{
    printf("call %llu, ", (unsigned long long)calls);
    print_call();
    printf("    gives %#x, must give %#x: ", got, must);
    for (int i = 0; i < call.outs && got == must && got == 0; i++)
        if (call.out[i].what == what) {
            printf("%s is ", what);
            print_bytes(call.out[i].lent, call.out[i].len);
            printf("    must be ");
            print_bytes(call.out[i].want, call.out[i].len);
            printf("    ");
        }
    char text[100];
    snprintf(text, sizeof text, "%s: %s %s", call.name, what, fault);
    differs(text);
}

static void note_answer(uint8_t answer)
{
    int i = 0;
    while (seen[i].name != NULL && strcmp(seen[i].name, call.name) != 0)
        i++;
    seen[i].name = call.name;
    if (answer < ANSWERS) {
        seen[i].answers[answer]++;
        section_answers[answer]++;
    }
}

void finish(uint32_t got, uint32_t must)
{
    calls++;
    note_answer(must & 255);
    if (got != must) {
        report("the answer", "differs", got, must);
        return;
    }
    for (int i = 0; i < call.outs; i++) {
        const char *fault = output_fault(&call.out[i], got != 0);
        if (fault != NULL) {
            report(call.out[i].what, fault, got, must);
            return;
        }
    }
    for (int i = 0; i < call.ins; i++)
        if (call.in[i].lent != NULL && memcmp(call.in[i].lent, call.in[i].before, call.in[i].len) != 0) {
            report(call.in[i].what, "was changed", got, must);
            return;
        }
}

void end_section(const char *title)
{
    uint64_t all = 0;
    for (int i = 0; i < ANSWERS; i++)
        all += section_answers[i];
    printf("%-12s %6llu calls: %llu accepted", title, (unsigned long long)all, (unsigned long long)section_answers[0]);
    const char *between = "; refused ";
    for (int i = 1; i < ANSWERS; i++)
        if (section_answers[i] > 0) {
            printf("%s%d: %llu", between, i, (unsigned long long)section_answers[i]);
            between = ", ";
        }
    printf("\n");
    fflush(stdout);
    memset(section_answers, 0, sizeof section_answers);
}

void must_have_seen(const char *name, const uint8_t *answers, int n)
{
    int i = 0;
    while (i < MOST_NAMES && seen[i].name != NULL && strcmp(seen[i].name, name) != 0)
        i++;
    for (int j = 0; j < n; j++)
        if (i == MOST_NAMES || seen[i].answers[answers[j]] == 0) {
            char text[100];
            snprintf(text, sizeof text, "no call of %s was to give %d: the cases are too few", name, answers[j]);
            differs(text);
        }
}

int end_tests(void)
{
    printf("c tests: %llu calls, %llu wrong\n", (unsigned long long)calls, (unsigned long long)wrong);
    return wrong == 0 ? 0 : 1;
}
