/* Sheafwinch for C (C11, also C++): libsheafwinch.a and libsheafwinch.so, x86-64 Linux. Every call is proved to be the call that it
 * wraps (crates/capi): it ends, on any words and any arguments, reads and writes nothing but what it is lent, and answers as said
 * here. The library needs nothing but memset, which a C library has.
 *
 * Who owns what. The caller owns everything. An image is an array of uint32_t that the caller lends for the time of a call, as a
 * pointer and a count of words (not bytes); the library keeps no pointer, allocates nothing, and has no state of its own. Copying
 * the words copies the image; they may be stored and loaded again on any machine that has the same byte order. A call on words that
 * are no image is refused with SHEAFWINCH_BAD_TABLE, so stored words need no other test.
 *
 * Pointers. A pointer may be NULL only with count 0. It must be aligned for what it points to, and all of the count must be there to read
 * (or, where there is no const, to write). Words that a call may change must overlap nothing else that is lent in the same call.
 * These rules are the caller's: no call can test them.
 *
 * Threads. Calls on different images may run at the same time. Calls on one image may run at the same time only where all of them
 * take it const (check and the reads).
 *
 * Answers. A struct by value. It is one to one: answers that differ have words that differ.
 *   kind      number                        values
 *   DONE      0                             what the call says below; most say none
 *   YES       0                             none
 *   MORE      0                             none
 *   FAILED    1 mismatch                    sub, sup: the pair of the step that failed
 *             2 missing field               sub, sup, name: the pair, and the name that is missing
 *   REFUSED   the refusal's number          5 NO ROOM: the region; 8 BROKEN: break kind, sub, sup, name; else none
 *   UNOPENED  the refusal's number          as REFUSED: open or open_equal refused at the opening; no step, no word changed
 * `count` says how many values there are; the others are 0. `steps` is 0 for every call but open, open_equal and work.
 *
 * Refusals. A call tests in the order that is listed with it and answers the first that holds. A refusal leaves every word as
 * found, save that a step refused by 5 or 6, in work or in the first instalment of an opening, keeps the earlier steps, tells their
 * number, and leaves the question asked. An opening that is itself refused answers UNOPENED, so that a 5 from it and a 5 from a step
 * are told apart.
 *
 * Flags. Where a call takes a flag, 0 is no and any other word is yes.
 *
 * Stack. That a call ends is proved; how much stack it takes is measured: see SHEAFWINCH_STACK.
 */
#ifndef SHEAFWINCH_H
#define SHEAFWINCH_H

#include <stdbool.h>
#include <stddef.h>
#include <stdint.h>

#ifdef __cplusplus
extern "C" {
#endif

/* Kinds of an answer. */
enum {
    SHEAFWINCH_DONE = 0,
    SHEAFWINCH_YES = 1,
    SHEAFWINCH_MORE = 2,
    SHEAFWINCH_FAILED = 3,
    SHEAFWINCH_REFUSED = 4,
    SHEAFWINCH_UNOPENED = 5
};

/* Numbers of a failure. */
enum {
    SHEAFWINCH_MISMATCH = 1,
    SHEAFWINCH_MISSING_FIELD = 2
};

/* Numbers of a refusal. */
enum {
    SHEAFWINCH_BAD_TABLE = 1,      /* the words are no well formed image */
    SHEAFWINCH_BAD_NUMBER = 2,     /* an entry, record, primitive, side, region, name or operator number that there is not */
    SHEAFWINCH_BUSY = 3,           /* a question is asked, and the call is not a read, work or abandon */
    SHEAFWINCH_IDLE = 4,           /* work or abandon, and no question is asked */
    SHEAFWINCH_NO_ROOM = 5,        /* a region lacks a record; carries the region */
    SHEAFWINCH_TOO_DEEP = 6,       /* a new entry's spread would pass 1,024 */
    SHEAFWINCH_BAD_FIELDS = 7,     /* not whole triples, names not strictly ascending or not below the name count, optional not 0/1 */
    SHEAFWINCH_BROKEN = 8,         /* a held question, and one in this table has failed; carries the first failure */
    SHEAFWINCH_BAD_CAPACITY = 9,   /* start: see there */
    SHEAFWINCH_LEVEL = 10,         /* exit at level 0, enter at 4,294,967,295 */
    SHEAFWINCH_NOT_A_VARIABLE = 11, /* a bound or a level for an entry that is no variable */
    SHEAFWINCH_BAD_NAMES = 12      /* a name list that is malformed */
};

/* Regions of an image. */
enum {
    SHEAFWINCH_ENTRIES = 1, /* 7 words: kind, x, y, z, flags, spread, negation */
    SHEAFWINCH_FIELDS = 2,  /* 3 words: name, entry, optional */
    SHEAFWINCH_BOUNDS = 3,  /* 3 words: variable, side, bound */
    SHEAFWINCH_VISITED = 4, /* 2 words: sub, sup */
    SHEAFWINCH_PENDING = 5, /* 2 words: sub, sup */
    SHEAFWINCH_EQUALS = 6   /* 2 words: left, right */
};

/* Most records that a region may have room for, and most names. */
enum {
    SHEAFWINCH_ENTRIES_MOST = 4096,
    SHEAFWINCH_FIELDS_MOST = 16384,
    SHEAFWINCH_BOUNDS_MOST = 65536,
    SHEAFWINCH_VISITED_MOST = 65536,
    SHEAFWINCH_PENDING_MOST = 65536,
    SHEAFWINCH_EQUALS_MOST = 65536,
    SHEAFWINCH_NAMES_MOST = 4096
};

/* Kinds of an entry. */
enum {
    SHEAFWINCH_VARIABLE = 0,
    SHEAFWINCH_PRIMITIVE = 1,
    SHEAFWINCH_LIST = 2,
    SHEAFWINCH_LAMBDA = 3,
    SHEAFWINCH_ATTRSET = 4,
    SHEAFWINCH_NAMED = 5,
    SHEAFWINCH_NEG = 6,
    SHEAFWINCH_INTER = 7,
    SHEAFWINCH_UNION = 8
};

/* Primitives. */
enum {
    SHEAFWINCH_NULL = 0,
    SHEAFWINCH_BOOL = 1,
    SHEAFWINCH_INT = 2,
    SHEAFWINCH_FLOAT = 3,
    SHEAFWINCH_STRING = 4,
    SHEAFWINCH_PATH = 5,
    SHEAFWINCH_URI = 6,
    SHEAFWINCH_NUMBER = 7
};

/* Operators. */
enum {
    SHEAFWINCH_ADD = 0,
    SHEAFWINCH_SUB = 1,
    SHEAFWINCH_MUL = 2,
    SHEAFWINCH_DIV = 3
};

/* Sides of a variable. */
enum {
    SHEAFWINCH_LOWER = 0,
    SHEAFWINCH_UPPER = 1
};

typedef struct sheafwinch_answer {
    uint32_t kind;
    uint32_t number;
    uint32_t steps;
    uint32_t count;
    uint32_t values[8];
} sheafwinch_answer;

/* How many records each region has room for. */
typedef struct sheafwinch_capacities {
    uint32_t entries;
    uint32_t fields;
    uint32_t bounds;
    uint32_t visited;
    uint32_t pending;
    uint32_t equals;
} sheafwinch_capacities;

/* The words of an image with room for so many records; a constant where its arguments are. At the most 667,675. */
#define SHEAFWINCH_WORDS(entries, fields, bounds, visited, pending, equals) \
    ((size_t)27 + (size_t)7 * (entries) + (size_t)3 * (fields) + (size_t)3 * (bounds) + (size_t)2 * (visited) \
     + (size_t)2 * (pending) + (size_t)2 * (equals))

/* Bytes of stack that a thread should have when it calls, enough for any call, image and argument; make_neg, open, open_equal and work take
 * most, where an entry's spread is near 1,024. Not proved: tools/stack computes what each call takes at the worst from the frames in the
 * archive (x86-64, as the kit rattle-kit-13f compiles it) and from how deep the spread limit lets a call nest, and runs the worst cases
 * that we know on a painted stack. The figure is at least one and a half times the worst of both, so that a thread of just this size has
 * room for what the C library takes of it; the gate holds the archive to that, and runs the cases on threads of this size. */
#define SHEAFWINCH_STACK 131072

/* Whether the words are a well formed image. */
bool sheafwinch_check(const uint32_t *image, size_t words);

/* Starts an image in the words, whatever stood there: no question asked, level 0, no records. `names` is how many names there are,
 * `functor` the number of the name __functor plus 1, or 0 where there is none.
 * Refusals: 9 where a capacity is over its most, the words are not exactly as many as SHEAFWINCH_WORDS gives, names is over 4,096,
 * or functor is above names. */
sheafwinch_answer sheafwinch_start(uint32_t *image, size_t words, uint32_t names, uint32_t functor, sheafwinch_capacities capacities);

/* The makes. Each answers one value, the number of the entry: the next one, counted from 0. An entry number that is given must be
 * one that a make answered. */

/* A variable at the current level. Refusals: 1, 3, 5. */
sheafwinch_answer sheafwinch_make_variable(uint32_t *image, size_t words);
/* A primitive, 0 to 7. Refusals: 1, 3, 2, 5. */
sheafwinch_answer sheafwinch_make_primitive(uint32_t *image, size_t words, uint32_t which);
/* A list. Refusals: 1, 3, 2, 5. */
sheafwinch_answer sheafwinch_make_list(uint32_t *image, size_t words, uint32_t element);
/* A lambda. Refusals: 1, 3, 2, 5. */
sheafwinch_answer sheafwinch_make_lambda(uint32_t *image, size_t words, uint32_t param, uint32_t body);
/* An attrset with the fields of a list: `field_words` words, three for each field: name, entry, optional (0 or 1), names strictly
 * ascending. The list is read and not kept. `is_open` is a flag. `has_dynamic` is a flag; where it is 0, `dynamic` counts for nothing,
 * else it is an entry. Refusals: 1, 3, 7, 2, 5 (entries), 5 (fields). */
sheafwinch_answer sheafwinch_make_attrset(uint32_t *image, size_t words, const uint32_t *fields, size_t field_words,
                                          uint32_t is_open, uint32_t has_dynamic, uint32_t dynamic);
/* An entry with a label, which is any word and is never tested. Refusals: 1, 3, 2, 5, 6. */
sheafwinch_answer sheafwinch_make_named(uint32_t *image, size_t words, uint32_t inner, uint32_t label);
/* The negation of an entry; may answer one that stands there, and may make more than one entry. Refusals: 1, 3, 2, 5, 6. */
sheafwinch_answer sheafwinch_make_neg(uint32_t *image, size_t words, uint32_t n);
/* An intersection. Refusals: 1, 3, 2, 5, 6. */
sheafwinch_answer sheafwinch_make_inter(uint32_t *image, size_t words, uint32_t left, uint32_t right);
/* A union. Refusals: 1, 3, 2, 5, 6. */
sheafwinch_answer sheafwinch_make_union(uint32_t *image, size_t words, uint32_t left, uint32_t right);

/* Sets the default mark of an entry. Refusals: 1, 3, 2. */
sheafwinch_answer sheafwinch_mark(uint32_t *image, size_t words, uint32_t n);
/* Puts a bound of a variable on a side, 0 lower or 1 upper. Refusals: 1, 3, 2, 11, 5. */
sheafwinch_answer sheafwinch_put_bound(uint32_t *image, size_t words, uint32_t variable, uint32_t side, uint32_t bound);
/* Enters a level, leaves one. Refusals: 1, 3, 10. */
sheafwinch_answer sheafwinch_enter(uint32_t *image, size_t words);
sheafwinch_answer sheafwinch_exit(uint32_t *image, size_t words);
/* Sets a variable's level. Refusals: 1, 3, 2, 11. */
sheafwinch_answer sheafwinch_set_level(uint32_t *image, size_t words, uint32_t variable, uint32_t level);

/* Opens the question whether sub fits under sup, and works it, at most `budget` steps: the first instalment. `held` is a flag: a held
 * question is refused once a question in this table has failed. With budget 0 the question is opened and the answer is MORE, 0 steps.
 * YES and FAILED end the question; after MORE it is still asked, and work goes on.
 * Refusals at the opening, answered UNOPENED: 1, 3, 8 if held, 2, 5. Then at a step, answered REFUSED: 5, 6, with `steps` the steps
 * before it. */
sheafwinch_answer sheafwinch_open(uint32_t *image, size_t words, uint32_t held, uint32_t sub, uint32_t sup, uint32_t budget);
/* Opens the question whether each of two entries fits under the other, and works it in the same way.
 * Refusals at the opening: 1, 3, 8 if held, 2, 5 (pending), 5 (equals). Then at a step: 5, 6. */
sheafwinch_answer sheafwinch_open_equal(uint32_t *image, size_t words, uint32_t held, uint32_t left, uint32_t right, uint32_t budget);
/* Works the question that is asked, at most `budget` steps: a later instalment. Tells the steps of this call. YES and FAILED end the
 * question; after MORE it is still asked, and the next work goes on where this one stopped. Refusals: 1, 4, and at a step 5, 6, with
 * `steps` the steps before it. */
sheafwinch_answer sheafwinch_work(uint32_t *image, size_t words, uint32_t budget);
/* Gives up the question that is asked. What its steps added stays, visited pairs too, so a later question may say yes for nothing: open
 * no more in that image. Refusals: 1, 4. */
sheafwinch_answer sheafwinch_abandon(uint32_t *image, size_t words);

/* The reads. All are allowed while a question is asked. */

/* An entry: its kind, then what the kind holds: variable level; primitive number; list element; lambda param, body; attrset first
 * field record, number of fields, open 0/1, dynamic present 0/1, dynamic type (0 where absent); named inner, label; neg inner;
 * inter left, right; union left, right. Refusals: 1, 2. */
sheafwinch_answer sheafwinch_entry(const uint32_t *image, size_t words, uint32_t n);
/* Record n of a region, 1 to 6: the region, then the record's words. Refusals: 1, 2. */
sheafwinch_answer sheafwinch_record(const uint32_t *image, size_t words, uint32_t region, uint32_t n);
/* Whether two entries are disjoint by their shapes: 1 where they then share no value; 0 says that nothing is known. Refusals: 1, 2. */
sheafwinch_answer sheafwinch_disjoint(const uint32_t *image, size_t words, uint32_t left, uint32_t right);

/* The name calls. A name list is bytes that the caller lends: count (16 bits, little endian), count+1 offsets (the same) into the
 * name bytes, then these. The first offset is 0, none falls, the last is the number of bytes left; at most 4,096 names, each 0 to 255
 * bytes, strictly ascending by unsigned bytes, a proper prefix first. A name's number is its place in the list. */

/* Whether the bytes are a name list. Refusals: 12. */
sheafwinch_answer sheafwinch_check_names(const uint8_t *list, size_t bytes);
/* Whether they are, and have a name n. Refusals: 12, 2. */
sheafwinch_answer sheafwinch_check_name(const uint8_t *list, size_t bytes, uint32_t n);
/* One value: how many names there are. Refusals: 12. */
sheafwinch_answer sheafwinch_count_names(const uint8_t *list, size_t bytes);
/* Two values: where in the list the bytes of name n start, and how many they are. Refusals: 12, 2. */
sheafwinch_answer sheafwinch_show_name(const uint8_t *list, size_t bytes, uint32_t n);
/* One value: 0 where the left name is before the right one, 1 where they are the same, 2 where it is after. Refusals: 12, 2. */
sheafwinch_answer sheafwinch_compare_names(const uint8_t *list, size_t bytes, uint32_t left, uint32_t right);
/* One value, the number of the name that has these bytes; none where no name has them. Refusals: 12. */
sheafwinch_answer sheafwinch_find_name(const uint8_t *list, size_t bytes, const uint8_t *name, size_t name_bytes);

/* The operators, 0 to 3, on primitives. One value, a primitive; none where nothing is known. Refusals: 2. */

/* The result of an operator on two primitives. */
sheafwinch_answer sheafwinch_resolve(uint32_t op, uint32_t left, uint32_t right);
/* The result as far as the left primitive alone settles it. */
sheafwinch_answer sheafwinch_from_left(uint32_t op, uint32_t left);
/* The primitive that bounds operands and result at once. */
sheafwinch_answer sheafwinch_at_once(uint32_t op);

#ifdef __cplusplus
}
#endif

#endif
