/* The worst cases of every call, as far as its stack goes. tools/stack/build links this with stubs that note where the stack pointer is
 * when a call is entered.
 *   cases measure     runs each case on a painted stack; prints CALL BYTES CASE
 *   cases fit BYTES   runs each case in a process of its own, on a thread that has BYTES of stack and a page below that cannot be
 *                     touched; prints a line for each that does not fit, with status 1 */
#include <pthread.h>
#include <stdio.h>
#include <stdlib.h>
#include <string.h>
#include <sys/mman.h>
#include <sys/wait.h>
#include <unistd.h>
#include "sheafwinch.h"

/* Where the return address of the last call was put. */
extern char *stack_entered;
/* Runs a function on the stack that ends at top. */
void stack_switch(void *top, void (*function)(void));

enum { SPREAD_MOST = 1024, DEEP = 1600, WIDE = 4096, NAME_BYTES = 15, STEPS = 5000, STACK = 1 << 20, PAGE = 1 << 16, PAINT = 0xa5 };
enum { LIST_BYTES = 2 + 2 * (WIDE + 1) + NAME_BYTES * WIDE };
enum { BOUNDS = 128, VISITED = 2048, PENDING = 1024, EQUALS = 4 };

/* What the calls are given, and what the last one answered. */
static uint32_t image[SHEAFWINCH_WORDS(2 * DEEP, 2 * WIDE, BOUNDS, VISITED, PENDING + WIDE, EQUALS)];
static size_t words;
static uint32_t a, b, fields[3 * WIDE];
static uint8_t list[LIST_BYTES];
static sheafwinch_capacities room;
static sheafwinch_answer answer;

/* Each call, alone. */
#define CALL(name, ...) static void run_##name(void) { answer = sheafwinch_##name(__VA_ARGS__); }
CALL(start, image, words, WIDE, 1, room)
CALL(make_variable, image, words)
CALL(make_primitive, image, words, SHEAFWINCH_NUMBER)
CALL(make_list, image, words, a)
CALL(make_lambda, image, words, a, b)
CALL(make_attrset, image, words, fields, 3 * WIDE, 0, 1, a)
CALL(make_named, image, words, a, b)
CALL(make_neg, image, words, a)
CALL(make_inter, image, words, a, b)
CALL(make_union, image, words, a, b)
CALL(mark, image, words, a)
CALL(put_bound, image, words, a, SHEAFWINCH_LOWER, b)
CALL(enter, image, words)
CALL(exit, image, words)
CALL(set_level, image, words, a, b)
CALL(open, image, words, 1, a, b, STEPS)
CALL(open_equal, image, words, 1, a, b, STEPS)
CALL(work, image, words, STEPS)
CALL(abandon, image, words)
CALL(entry, image, words, a)
CALL(record, image, words, SHEAFWINCH_ENTRIES, a)
CALL(disjoint, image, words, a, b)
CALL(check_names, list, LIST_BYTES)
CALL(check_name, list, LIST_BYTES, WIDE - 1)
CALL(count_names, list, LIST_BYTES)
CALL(show_name, list, LIST_BYTES, WIDE - 1)
CALL(compare_names, list, LIST_BYTES, WIDE - 1, WIDE - 2)
CALL(find_name, list, LIST_BYTES, list + LIST_BYTES - NAME_BYTES, NAME_BYTES)
CALL(resolve, SHEAFWINCH_ADD, SHEAFWINCH_INT, SHEAFWINCH_FLOAT)
CALL(from_left, SHEAFWINCH_ADD, SHEAFWINCH_STRING)
CALL(at_once, SHEAFWINCH_MUL)
static void run_check(void)
{
    answer = (sheafwinch_answer){.kind = sheafwinch_check(image, words) ? SHEAFWINCH_YES : SHEAFWINCH_REFUSED};
}

static const char *preparing;

/* The value of an answer, which must be done. */
static uint32_t done(sheafwinch_answer got)
{
    if (got.kind != SHEAFWINCH_DONE) {
        printf("cases: %s cannot be prepared: a call answers %u %u\n", preparing, (unsigned)got.kind, (unsigned)got.number);
        exit(2);
    }
    return got.values[0];
}

static void size(uint32_t entries, uint32_t field_records, uint32_t visited)
{
    uint32_t pending = PENDING + field_records / 2;
    room = (sheafwinch_capacities){entries, field_records, BOUNDS, visited, pending, EQUALS};
    words = SHEAFWINCH_WORDS(entries, field_records, BOUNDS, visited, pending, EQUALS);
}

static void table(uint32_t entries, uint32_t field_records, uint32_t visited)
{
    size(entries, field_records, visited);
    done(sheafwinch_start(image, words, WIDE, 1, room));
}

static uint32_t variable(void) { return done(sheafwinch_make_variable(image, words)); }
static uint32_t string(void) { return done(sheafwinch_make_primitive(image, words, SHEAFWINCH_STRING)); }
static uint32_t lambda(uint32_t x, uint32_t y) { return done(sheafwinch_make_lambda(image, words, x, y)); }
static uint32_t named(uint32_t x) { return done(sheafwinch_make_named(image, words, x, 0)); }
static uint32_t neg(uint32_t x) { return done(sheafwinch_make_neg(image, words, x)); }
static uint32_t inter(uint32_t x, uint32_t y) { return done(sheafwinch_make_inter(image, words, x, y)); }
static uint32_t unite(uint32_t x, uint32_t y) { return done(sheafwinch_make_union(image, words, x, y)); }
static void question(uint32_t sub, uint32_t sup) { a = sub, b = sup; }

/* Fields of the names from `from` to `to` - 1, all of type x. */
static void list_fields(uint32_t from, uint32_t to, uint32_t x)
{
    for (uint32_t i = from; i < to; i++)
        memcpy(fields + 3 * (i - from), (uint32_t[]){i, x, 0}, 3 * sizeof *fields);
}

/* A closed attrset with these fields, without a dynamic type or with x for it. */
static uint32_t attrset(uint32_t from, uint32_t to, uint32_t x, uint32_t has_dynamic)
{
    list_fields(from, to, x);
    return done(sheafwinch_make_attrset(image, words, fields, 3 * (to - from), 0, has_dynamic, x));
}

static uint32_t spread_of(uint32_t x) { return sheafwinch_record(image, words, SHEAFWINCH_ENTRIES, x).values[6]; }

/* Wraps x by the letters of a pattern, over and over, as far as the spread `most` goes: n named, - neg, i inter(x, y), I inter(y, x),
 * u union(x, y), U union(y, x). */
static uint32_t chain(const char *pattern, uint32_t x, uint32_t y, uint32_t most)
{
    for (const char *p = pattern;; p = p[1] ? p + 1 : pattern) {
        if (spread_of(x) + 1 + (*p == 'n' || *p == '-' ? 0 : spread_of(y)) > most)
            return x;
        switch (*p) {
        case 'n': x = named(x); break;
        case '-': x = neg(x); break;
        case 'i': x = inter(x, y); break;
        case 'I': x = inter(y, x); break;
        case 'u': x = unite(x, y); break;
        case 'U': x = unite(y, x); break;
        }
    }
}

/* What stands ready for a call; the chains in it by a pattern. */

static void no_table(const char *pattern)
{
    (void)pattern;
    size(DEEP, 2 * WIDE, VISITED);
}

/* A variable, a string, and a chain; a level entered, a negation cached. */
static void deep(const char *pattern)
{
    table(DEEP, WIDE, VISITED);
    a = variable();
    b = string();
    neg(b);
    chain(pattern, a, b, SPREAD_MOST);
    list_fields(0, WIDE, b);
    done(sheafwinch_enter(image, words));
}

/* Two closed attrsets that have all names but one, each another. */
static void wide(const char *pattern)
{
    (void)pattern;
    table(16, 2 * WIDE, 16);
    uint32_t s = string();
    a = attrset(0, WIDE - 1, s, 0);
    b = attrset(1, WIDE, s, 0);
}

static void names(const char *pattern)
{
    (void)pattern;
    uint8_t *offset = list, *name = list + LIST_BYTES - NAME_BYTES * WIDE;
    *offset++ = WIDE & 255, *offset++ = WIDE >> 8;
    for (unsigned i = 0; i <= WIDE; i++)
        *offset++ = NAME_BYTES * i & 255, *offset++ = (uint8_t)(NAME_BYTES * i >> 8);
    for (unsigned i = 0; i < WIDE; i++, name += NAME_BYTES)
        name[NAME_BYTES - 2] = (uint8_t)(i >> 8), name[NAME_BYTES - 1] = i & 255;
}

/* To be negated: a chain of which the negation is too deep; the same with no entry free; one of negs, which come to less. */
static void negation(const char *pattern)
{
    table(DEEP, 0, 16);
    a = chain(pattern, variable(), string(), SPREAD_MOST);
}

static void negation_full(const char *pattern)
{
    table(2 + (SPREAD_MOST - 1) / 2, 0, 16);
    a = chain(pattern, variable(), string(), SPREAD_MOST);
}

static void negation_made(const char *pattern)
{
    table(DEEP, 0, 16);
    uint32_t n = neg(string());
    a = chain(pattern, n, n, SPREAD_MOST);
}

/* Questions, of a and b. An inter of which one side is a chain to a variable. */
static void variable_left(const char *pattern)
{
    table(DEEP, 0, VISITED);
    uint32_t s = string();
    question(inter(chain(pattern, variable(), s, SPREAD_MOST - 2), s), string());
}

static void variable_right(const char *pattern)
{
    table(DEEP, 0, VISITED);
    uint32_t s = string();
    question(inter(s, chain(pattern, variable(), s, SPREAD_MOST - 2)), string());
}

/* The negation of an inter's other side, looked for in a chain on the right that has none (and the new union is too deep), or has it at
 * its end. */
static void member_missing(const char *pattern)
{
    table(DEEP, 0, VISITED);
    uint32_t s = string();
    question(inter(variable(), s), unite(chain(pattern, string(), s, SPREAD_MOST - 2), s));
}

static void member_found(const char *pattern)
{
    table(DEEP, 0, VISITED);
    uint32_t s = string();
    question(inter(variable(), s), unite(chain(pattern, neg(s), s, SPREAD_MOST - 2), s));
}

/* The other side a chain, each member of it tested against the right: its negation is too deep; finds no entry free; is made, and
 * there is room or none for the visited pair; a member is disjoint. */
static void other_too_deep(const char *pattern)
{
    table(DEEP, 256, VISITED);
    uint32_t s = string(), x = attrset(0, 64, s, 1);
    question(inter(variable(), chain(pattern, x, attrset(0, 64, s, 1), SPREAD_MOST - 2)), attrset(0, 64, s, 1));
}

static void other_full(const char *pattern)
{
    table(4 + (SPREAD_MOST - 3) / 2, 0, VISITED);
    uint32_t s = string();
    question(inter(variable(), chain(pattern, s, s, SPREAD_MOST - 2)), string());
}

static void other_of(const char *pattern, uint32_t visited)
{
    table(DEEP, 0, visited);
    uint32_t n = neg(string());
    question(inter(variable(), chain(pattern, n, n, SPREAD_MOST - 2)), string());
}

static void other_made(const char *pattern) { other_of(pattern, VISITED); }
static void other_undone(const char *pattern) { other_of(pattern, 0); }

static void other_disjoint(const char *pattern)
{
    table(DEEP, 256, VISITED);
    uint32_t s = string(), x = attrset(0, 64, s, 1);
    question(inter(variable(), chain(pattern, x, attrset(0, 32, s, 1), SPREAD_MOST - 2)), s);
}

/* A chain under a chain, an attrset under one, a union of attrsets, a lambda, or a variable that has bounds. */
static void both_deep(const char *pattern)
{
    table(2 * DEEP, 0, VISITED);
    uint32_t s = string(), t = string();
    question(chain(pattern, s, t, SPREAD_MOST), chain(pattern, t, s, SPREAD_MOST));
}

static void fields_under(const char *pattern)
{
    (void)pattern;
    table(16, 2 * WIDE, 16);
    uint32_t x = attrset(0, WIDE, string(), 1);
    question(x, attrset(0, WIDE, string(), 1));
}

static void field_missing(const char *pattern)
{
    wide(pattern);
}

static void union_right(const char *pattern)
{
    wide(pattern);
    question(a, unite(b, attrset(0, 0, a, 0)));
}

static void functor(const char *pattern)
{
    (void)pattern;
    table(16, WIDE, 16);
    uint32_t v = variable();
    question(attrset(0, WIDE, v, 1), lambda(v, string()));
}

static void bounds(const char *pattern)
{
    (void)pattern;
    table(DEEP, 0, VISITED);
    uint32_t v = variable();
    for (int i = 0; i < BOUNDS / 3; i++)
        done(sheafwinch_put_bound(image, words, v, SHEAFWINCH_LOWER, string()));
    done(sheafwinch_mark(image, words, v));
    question(v, variable());
}

/* Every case, with what it must answer. ALL has every kind that nests. ASKED: the question of a and b is opened before the call, and no
 * step worked. QUESTION: opened and worked in one call; opened before, and worked. FIRST: the same, and opened both ways, where the first
 * pair settles the answer. */
#define ALL "n-iUnIu"
#define DONE SHEAFWINCH_DONE, 0
#define YES SHEAFWINCH_YES, 0
#define REFUSED(number) SHEAFWINCH_REFUSED, SHEAFWINCH_##number
#define FAILED(number) SHEAFWINCH_FAILED, SHEAFWINCH_##number
#define ROW(prepare, pattern, asked, call, ...) {"sheafwinch_" #call, #prepare, prepare, pattern, asked, run_##call, __VA_ARGS__}
#define CASE(prepare, pattern, call, ...) ROW(prepare, pattern, 0, call, __VA_ARGS__)
#define ASKED(prepare, pattern, call, ...) ROW(prepare, pattern, 1, call, __VA_ARGS__)
#define QUESTION(prepare, pattern, ...) CASE(prepare, pattern, open, __VA_ARGS__), ASKED(prepare, pattern, work, __VA_ARGS__)
#define FIRST(prepare, pattern, ...) QUESTION(prepare, pattern, __VA_ARGS__), CASE(prepare, pattern, open_equal, __VA_ARGS__)
static const struct worst {
    const char *call, *name;
    void (*prepare)(const char *pattern);
    const char *pattern;
    int asked;
    void (*run)(void);
    uint32_t kind, number;
} cases[] = {
    CASE(deep, ALL, check, YES),
    CASE(deep, "n", check, YES),
    CASE(wide, "", check, YES),
    CASE(no_table, "", start, DONE),
    CASE(deep, ALL, make_variable, DONE),
    CASE(deep, ALL, make_primitive, DONE),
    CASE(deep, ALL, make_list, DONE),
    CASE(deep, ALL, make_lambda, DONE),
    CASE(deep, ALL, make_attrset, DONE),
    CASE(deep, ALL, make_named, DONE),
    CASE(negation, "i", make_named, DONE),
    CASE(deep, ALL, make_inter, DONE),
    CASE(deep, ALL, make_union, DONE),
    CASE(negation, "i", make_neg, REFUSED(TOO_DEEP)),
    CASE(negation, "I", make_neg, REFUSED(TOO_DEEP)),
    CASE(negation, "u", make_neg, REFUSED(TOO_DEEP)),
    CASE(negation, "U", make_neg, REFUSED(TOO_DEEP)),
    CASE(negation, "iU", make_neg, REFUSED(TOO_DEEP)),
    CASE(negation, "n", make_neg, REFUSED(TOO_DEEP)),
    CASE(negation_full, "i", make_neg, REFUSED(NO_ROOM)),
    CASE(negation_made, "i", make_neg, DONE),
    CASE(negation_made, "U", make_neg, DONE),
    CASE(deep, ALL, mark, DONE),
    CASE(deep, ALL, put_bound, DONE),
    CASE(deep, ALL, enter, DONE),
    CASE(deep, ALL, exit, DONE),
    CASE(deep, ALL, set_level, DONE),
    QUESTION(deep, ALL, YES),
    CASE(deep, ALL, open_equal, YES),
    QUESTION(variable_left, "n", YES),
    QUESTION(variable_left, "i", YES),
    QUESTION(variable_left, "I", YES),
    QUESTION(variable_left, "nI", YES),
    QUESTION(variable_right, "n", YES),
    QUESTION(variable_right, "i", YES),
    QUESTION(variable_right, "I", YES),
    QUESTION(variable_right, "ni", YES),
    FIRST(member_missing, "n", REFUSED(TOO_DEEP)),
    FIRST(member_missing, "u", REFUSED(TOO_DEEP)),
    FIRST(member_missing, "U", REFUSED(TOO_DEEP)),
    FIRST(member_missing, "nU", REFUSED(TOO_DEEP)),
    QUESTION(member_found, "n", YES),
    QUESTION(member_found, "u", YES),
    QUESTION(member_found, "U", YES),
    FIRST(other_too_deep, "i", REFUSED(TOO_DEEP)),
    FIRST(other_too_deep, "I", REFUSED(TOO_DEEP)),
    FIRST(other_full, "i", REFUSED(NO_ROOM)),
    FIRST(other_full, "u", REFUSED(NO_ROOM)),
    QUESTION(other_made, "i", YES),
    QUESTION(other_made, "U", YES),
    FIRST(other_undone, "i", REFUSED(NO_ROOM)),
    FIRST(other_undone, "iU", REFUSED(NO_ROOM)),
    FIRST(other_disjoint, "i", FAILED(MISMATCH)),
    FIRST(other_disjoint, "I", FAILED(MISMATCH)),
    QUESTION(both_deep, "n", YES),
    QUESTION(both_deep, "n-", YES),
    QUESTION(both_deep, "i", YES),
    QUESTION(both_deep, "u", YES),
    FIRST(both_deep, ALL, FAILED(MISMATCH)),
    QUESTION(fields_under, "", YES),
    FIRST(field_missing, "", FAILED(MISSING_FIELD)),
    FIRST(union_right, "", FAILED(MISMATCH)),
    QUESTION(functor, "", YES),
    QUESTION(bounds, "", YES),
    ASKED(deep, ALL, abandon, DONE),
    CASE(deep, ALL, entry, DONE),
    CASE(wide, "", entry, DONE),
    CASE(deep, ALL, record, DONE),
    CASE(wide, "", disjoint, DONE),
    CASE(deep, ALL, disjoint, DONE),
    CASE(names, "", check_names, DONE),
    CASE(names, "", check_name, DONE),
    CASE(names, "", count_names, DONE),
    CASE(names, "", show_name, DONE),
    CASE(names, "", compare_names, DONE),
    CASE(names, "", find_name, DONE),
    CASE(no_table, "", resolve, DONE),
    CASE(no_table, "", from_left, DONE),
    CASE(no_table, "", at_once, DONE),
};

static void prepare(const struct worst *this)
{
    preparing = this->name;
    this->prepare(this->pattern);
    if (this->asked && sheafwinch_open(image, words, 1, a, b, 0).kind != SHEAFWINCH_MORE) {
        printf("cases: %s cannot be prepared: its question is not opened\n", preparing);
        exit(2);
    }
}

/* Whether the call answered what the case is there for. */
static int as_due(const struct worst *this)
{
    if (answer.kind == this->kind && answer.number == this->number)
        return 1;
    printf("cases: %s (%s %s) answers %u %u, and %u %u is due\n", this->call, this->name, this->pattern, (unsigned)answer.kind,
           (unsigned)answer.number, (unsigned)this->kind, (unsigned)this->number);
    return 0;
}

/* Prints how many bytes the call takes, from its return address to the last that it writes. */
static int measure(const struct worst *this)
{
    static _Alignas(16) unsigned char stack[STACK];
    prepare(this);
    memset(stack, PAINT, STACK);
    stack_switch(stack + STACK, this->run);
    const unsigned char *low = stack;
    while (*low == PAINT)
        low++;
    printf("%s %td %s %s\n", this->call, stack_entered + sizeof(void *) - (const char *)low, this->name, this->pattern);
    return as_due(this);
}

static void *on_thread(void *this)
{
    ((const struct worst *)this)->run();
    return NULL;
}

/* Runs the case on a thread that has so many bytes of stack, and leaves. */
static void run_alone(const struct worst *this, size_t bytes)
{
    pthread_attr_t thread;
    pthread_t id;
    char *stack = mmap(NULL, PAGE + bytes, PROT_READ | PROT_WRITE, MAP_PRIVATE | MAP_ANONYMOUS, -1, 0);
    if (stack == MAP_FAILED || mprotect(stack, PAGE, PROT_NONE) || pthread_attr_init(&thread)
        || pthread_attr_setstack(&thread, stack + PAGE, bytes)) {
        printf("cases: no stack of %zu bytes\n", bytes);
        exit(1);
    }
    prepare(this);
    if (pthread_create(&id, &thread, on_thread, (void *)this)) {
        printf("cases: no thread with %zu bytes of stack\n", bytes);
        exit(1);
    }
    pthread_join(id, NULL);
    exit(!as_due(this));
}

static int fits(const struct worst *this, size_t bytes)
{
    int status = 1;
    fflush(stdout);
    pid_t child = fork();
    if (child == 0)
        run_alone(this, bytes);
    if (child < 0 || waitpid(child, &status, 0) != child)
        printf("cases: no process for %s\n", this->call);
    else if (WIFSIGNALED(status))
        printf("cases: %s (%s %s) does not fit in %zu bytes of stack: signal %d\n", this->call, this->name, this->pattern, bytes,
               WTERMSIG(status));
    return status == 0;
}

int main(int count, char **arguments)
{
    int good = 1;
    size_t bytes = count == 3 && strcmp(arguments[1], "fit") == 0 ? strtoul(arguments[2], NULL, 10) : 0;
    if (bytes == 0 && (count != 2 || strcmp(arguments[1], "measure") != 0)) {
        printf("usage: cases measure | cases fit BYTES\n");
        return 2;
    }
    for (size_t i = 0; i < sizeof cases / sizeof *cases; i++)
        good &= bytes == 0 ? measure(cases + i) : fits(cases + i, bytes);
    return !good;
}
