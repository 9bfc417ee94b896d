/* The bench table made from C, and its question B3 opened and worked in instalments: does Number fit under Number-or-Int, in the order in
 * which the rules take the union's members; then one of every other call. Prints every answer. */
#include <stdio.h>
#include "sheafwinch.h"

enum { WORDS = SHEAFWINCH_WORDS(24, 8, 8, 8, 8, 4) };

static const char *kinds[] = {"done", "yes", "more", "failed", "refused", "unopened"};

static void print(const char *call, sheafwinch_answer a)
{
    printf("%s: %s", call, a.kind <= SHEAFWINCH_UNOPENED ? kinds[a.kind] : "?");
    if (a.number != 0)
        printf(" %u", (unsigned)a.number);
    for (uint32_t i = 0; i < a.count && i < 8; i++)
        printf("%s%u", i == 0 ? " (" : " ", (unsigned)a.values[i]);
    if (a.count != 0)
        printf(")");
    if (a.steps != 0)
        printf(", %u steps", (unsigned)a.steps);
    printf("\n");
}

/* Names 0 __functor, 1 x, 2 y. */
static void make_table(uint32_t *image)
{
    static const uint32_t x_int[] = {1, 0, 0}, x_number[] = {1, 1, 0}, x_and_y[] = {1, 0, 0, 2, 3, 0}, functor[] = {0, 4, 0};
    sheafwinch_capacities room = {24, 8, 8, 8, 8, 4};
    print("start", sheafwinch_start(image, WORDS, 3, 1, room));
    print("0 Int", sheafwinch_make_primitive(image, WORDS, SHEAFWINCH_INT));
    print("1 Number", sheafwinch_make_primitive(image, WORDS, SHEAFWINCH_NUMBER));
    print("2 Float", sheafwinch_make_primitive(image, WORDS, SHEAFWINCH_FLOAT));
    print("3 String", sheafwinch_make_primitive(image, WORDS, SHEAFWINCH_STRING));
    print("4 variable", sheafwinch_make_variable(image, WORDS));
    print("5 variable", sheafwinch_make_variable(image, WORDS));
    print("6 union(1, 0)", sheafwinch_make_union(image, WORDS, 1, 0));
    print("7 neg 0", sheafwinch_make_neg(image, WORDS, 0));
    print("8 {x: 0}", sheafwinch_make_attrset(image, WORDS, x_int, 3, 0, 0, 0));
    print("9 {x: 1}", sheafwinch_make_attrset(image, WORDS, x_number, 3, 0, 0, 0));
    print("10 {x: 0, y: 3}", sheafwinch_make_attrset(image, WORDS, x_and_y, 6, 0, 0, 0));
    print("11 lambda(0, 3)", sheafwinch_make_lambda(image, WORDS, 0, 3));
    print("12 open {}", sheafwinch_make_attrset(image, WORDS, NULL, 0, 1, 0, 0));
    print("13 {__functor: 4}", sheafwinch_make_attrset(image, WORDS, functor, 3, 0, 0, 0));
    print("14 inter(4, 3)", sheafwinch_make_inter(image, WORDS, 4, 3));
}

int main(void)
{
    static uint32_t image[WORDS];
    printf("check before start: %d\n", sheafwinch_check(image, WORDS));
    print("mark before start", sheafwinch_mark(image, WORDS, 0));
    make_table(image);
    printf("check: %d\n", sheafwinch_check(image, WORDS));

    print("open (1, 6), budget 0", sheafwinch_open(image, WORDS, 0, 1, 6, 0));
    print("work 2", sheafwinch_work(image, WORDS, 2));
    print("make while asked", sheafwinch_make_variable(image, WORDS));
    print("pending 0", sheafwinch_record(image, WORDS, SHEAFWINCH_PENDING, 0));
    print("work 1", sheafwinch_work(image, WORDS, 1));
    print("work again", sheafwinch_work(image, WORDS, 1));

    print("open (1, 6), held", sheafwinch_open(image, WORDS, 1, 1, 6, 100));
    print("open equal (0, 2), budget 0", sheafwinch_open_equal(image, WORDS, 0, 0, 2, 0));
    print("abandon", sheafwinch_abandon(image, WORDS));
    print("equals 0", sheafwinch_record(image, WORDS, SHEAFWINCH_EQUALS, 0));
    print("open (8, 10)", sheafwinch_open(image, WORDS, 0, 8, 10, 100));

    print("put lower bound of 4", sheafwinch_put_bound(image, WORDS, 4, SHEAFWINCH_LOWER, 0));
    print("enter", sheafwinch_enter(image, WORDS));
    print("set level of 5", sheafwinch_set_level(image, WORDS, 5, 7));
    print("exit", sheafwinch_exit(image, WORDS));
    print("exit at 0", sheafwinch_exit(image, WORDS));
    print("mark 5", sheafwinch_mark(image, WORDS, 5));
    print("list of 5", sheafwinch_make_list(image, WORDS, 5));
    print("named 15", sheafwinch_make_named(image, WORDS, 15, 99));
    print("{x: 0, dynamic 3}", sheafwinch_make_attrset(image, WORDS, (const uint32_t[]){1, 0, 0}, 3, 2, 1, 3));
    for (uint32_t n = 0; n <= 18; n++) {
        char call[16];
        snprintf(call, sizeof call, "entry %u", (unsigned)n);
        print(call, sheafwinch_entry(image, WORDS, n));
    }
    print("record 5 of entries", sheafwinch_record(image, WORDS, SHEAFWINCH_ENTRIES, 5));
    print("record 3 of fields", sheafwinch_record(image, WORDS, SHEAFWINCH_FIELDS, 3));
    print("record 0 of bounds", sheafwinch_record(image, WORDS, SHEAFWINCH_BOUNDS, 0));
    print("record 0 of visited", sheafwinch_record(image, WORDS, SHEAFWINCH_VISITED, 0));
    print("disjoint 0 3", sheafwinch_disjoint(image, WORDS, 0, 3));
    print("disjoint 0 1", sheafwinch_disjoint(image, WORDS, 0, 1));

    /* Two NO ROOMs: of an equal question's opening, which needs two pending records; and of the second step of a question that is open,
     * which needs a second visited record. */
    enum { FEW = SHEAFWINCH_WORDS(4, 0, 0, 1, 1, 1) };
    static uint32_t small[FEW];
    print("small", sheafwinch_start(small, FEW, 0, 0, (sheafwinch_capacities){4, 0, 0, 1, 1, 1}));
    print("0 Int", sheafwinch_make_primitive(small, FEW, SHEAFWINCH_INT));
    print("1 Number", sheafwinch_make_primitive(small, FEW, SHEAFWINCH_NUMBER));
    print("2 list 0", sheafwinch_make_list(small, FEW, 0));
    print("3 list 1", sheafwinch_make_list(small, FEW, 1));
    print("open equal (2, 3)", sheafwinch_open_equal(small, FEW, 1, 2, 3, 100));
    print("open (2, 3)", sheafwinch_open(small, FEW, 1, 2, 3, 100));
    print("abandon", sheafwinch_abandon(small, FEW));

    /* __functor, x, y */
    static const uint8_t names[] = {3, 0, 0, 0, 9, 0, 10, 0, 11, 0, '_', '_', 'f', 'u', 'n', 'c', 't', 'o', 'r', 'x', 'y'};
    print("check names", sheafwinch_check_names(names, sizeof names));
    print("check names, a byte short", sheafwinch_check_names(names, sizeof names - 1));
    print("check name 3", sheafwinch_check_name(names, sizeof names, 3));
    print("count names", sheafwinch_count_names(names, sizeof names));
    print("show name 0", sheafwinch_show_name(names, sizeof names, 0));
    print("show name 2", sheafwinch_show_name(names, sizeof names, 2));
    print("show name 3", sheafwinch_show_name(names, sizeof names, 3));
    print("compare 1 2", sheafwinch_compare_names(names, sizeof names, 1, 2));
    print("find y", sheafwinch_find_name(names, sizeof names, (const uint8_t *)"y", 1));
    print("find z", sheafwinch_find_name(names, sizeof names, (const uint8_t *)"z", 1));
    print("Int + Float", sheafwinch_resolve(SHEAFWINCH_ADD, SHEAFWINCH_INT, SHEAFWINCH_FLOAT));
    print("Int - String", sheafwinch_resolve(SHEAFWINCH_SUB, SHEAFWINCH_INT, SHEAFWINCH_STRING));
    print("String +", sheafwinch_from_left(SHEAFWINCH_ADD, SHEAFWINCH_STRING));
    print("/ at once", sheafwinch_at_once(SHEAFWINCH_DIV));
    print("operator 4", sheafwinch_at_once(4));
    return 0;
}
