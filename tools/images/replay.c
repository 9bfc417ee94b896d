/* Holds stored images to what is stored with them, through the calls for C; images/format-1/README.md says what the files hold.
 *   replay test FOLDER...   makes each image anew by `made`, loads it and runs `next`: every answer and every word as stored
 *   replay make FOLDER      writes `image`, and the answers that `made` and `next` leave out
 * Tells each difference with file, line and what differs; status 1 where there is one. */
#include <stdarg.h>
#include <stdbool.h>
#include <stddef.h>
#include <stdint.h>
#include <stdio.h>
#include <stdlib.h>
#include <string.h>
#include "sheafwinch.h"

enum { ARGUMENTS_MOST = 8, ANSWER_ROOM = 256, PATH_ROOM = 4096, WORDS_A_LINE = 16 };

enum call {
    CHECK, START, MAKE_VARIABLE, MAKE_PRIMITIVE, MAKE_LIST, MAKE_LAMBDA, MAKE_ATTRSET, MAKE_NAMED, MAKE_NEG, MAKE_INTER, MAKE_UNION,
    MARK, PUT_BOUND, ENTER, EXIT, SET_LEVEL, OPEN, OPEN_EQUAL, WORK, ABANDON, ENTRY, RECORD, DISJOINT, CHECK_NAMES, CHECK_NAME,
    COUNT_NAMES, SHOW_NAME, COMPARE_NAMES, FIND_NAME, RESOLVE, FROM_LEFT, AT_ONCE, CALLS
};

/* Each call's name in the header less `sheafwinch_`, how many words it takes, and whether it is lent further words after a colon. */
static const struct {
    const char *name;
    unsigned arguments;
    bool further;
} calls[CALLS] = {
    [CHECK] = {"check", 0, false},
    [START] = {"start", 8, false},
    [MAKE_VARIABLE] = {"make_variable", 0, false},
    [MAKE_PRIMITIVE] = {"make_primitive", 1, false},
    [MAKE_LIST] = {"make_list", 1, false},
    [MAKE_LAMBDA] = {"make_lambda", 2, false},
    [MAKE_ATTRSET] = {"make_attrset", 3, true},
    [MAKE_NAMED] = {"make_named", 2, false},
    [MAKE_NEG] = {"make_neg", 1, false},
    [MAKE_INTER] = {"make_inter", 2, false},
    [MAKE_UNION] = {"make_union", 2, false},
    [MARK] = {"mark", 1, false},
    [PUT_BOUND] = {"put_bound", 3, false},
    [ENTER] = {"enter", 0, false},
    [EXIT] = {"exit", 0, false},
    [SET_LEVEL] = {"set_level", 2, false},
    [OPEN] = {"open", 4, false},
    [OPEN_EQUAL] = {"open_equal", 4, false},
    [WORK] = {"work", 1, false},
    [ABANDON] = {"abandon", 0, false},
    [ENTRY] = {"entry", 1, false},
    [RECORD] = {"record", 2, false},
    [DISJOINT] = {"disjoint", 2, false},
    [CHECK_NAMES] = {"check_names", 0, false},
    [CHECK_NAME] = {"check_name", 1, false},
    [COUNT_NAMES] = {"count_names", 0, false},
    [SHOW_NAME] = {"show_name", 1, false},
    [COMPARE_NAMES] = {"compare_names", 2, false},
    [FIND_NAME] = {"find_name", 0, true},
    [RESOLVE] = {"resolve", 3, false},
    [FROM_LEFT] = {"from_left", 2, false},
    [AT_ONCE] = {"at_once", 1, false},
};

struct words {
    uint32_t *at;
    size_t count;
};

struct bytes {
    uint8_t *at;
    size_t count;
};

/* What a line holds: its verb, the words after it, those after a colon, and its answer (NULL where there is none). */
struct line {
    const char *verb;
    struct words words, further;
    bool colon;
    const char *answer;
};

/* One stored image, and where the reading of its files stands. */
struct stored {
    const char *folder;
    const char *file;
    unsigned line;
    bool make;             /* the answers that are left out are filled in */
    struct words image;    /* as stored; in `make` as `made` left it */
    struct words now;      /* as the calls so far left it */
    struct bytes names;
    struct bytes said;     /* in `make`: the file with its answers */
};

static bool wrong(const struct stored *s, const char *form, ...)
{
    va_list values;
    printf("%s/%s", s->folder, s->file);
    if (s->line != 0)
        printf(":%u", s->line);
    printf(": ");
    va_start(values, form);
    vprintf(form, values);
    va_end(values);
    printf("\n");
    return false;
}

static void *room(void *old, size_t bytes)
{
    void *at = realloc(old, bytes == 0 ? 1 : bytes);
    if (at == NULL) {
        printf("replay: no memory\n");
        exit(2);
    }
    return at;
}

/* Exactly so many words, the old ones first, then zeros. */
static void resize(struct words *w, size_t count)
{
    w->at = room(w->at, count * sizeof *w->at);
    for (size_t i = w->count; i < count; i++)
        w->at[i] = 0;
    w->count = count;
}

static void copy(struct words *to, const struct words *from)
{
    resize(to, from->count);
    memcpy(to->at, from->at, from->count * sizeof *to->at);
}

static void put(struct words *w, uint32_t word)
{
    resize(w, w->count + 1);
    w->at[w->count - 1] = word;
}

static void say(struct bytes *said, const char *form, ...)
{
    char text[ANSWER_ROOM];
    va_list values;
    va_start(values, form);
    int length = vsnprintf(text, sizeof text, form, values);
    va_end(values);
    said->at = room(said->at, said->count + (size_t)length + 1);
    memcpy(said->at + said->count, text, (size_t)length);
    said->count += (size_t)length;
}

static void say_text(struct bytes *said, const char *text)
{
    size_t length = strlen(text);
    said->at = room(said->at, said->count + length + 1);
    memcpy(said->at + said->count, text, length);
    said->count += length;
}

static FILE *opened(const struct stored *s, const char *way)
{
    char path[PATH_ROOM];
    snprintf(path, sizeof path, "%s/%s", s->folder, s->file);
    return fopen(path, way);
}

/* All of a file, with a 0 after it. */
static bool read_file(struct stored *s, const char *name, struct bytes *into)
{
    s->file = name;
    s->line = 0;
    FILE *f = opened(s, "rb");
    if (f == NULL)
        return wrong(s, "cannot be read");
    into->count = 0;
    for (size_t got = 1; got > 0; into->count += got) {
        into->at = room(into->at, into->count + 65536 + 1);
        got = fread(into->at + into->count, 1, 65536, f);
    }
    fclose(f);
    into->at[into->count] = 0;
    return true;
}

static bool write_file(struct stored *s, const char *name, const struct bytes *from)
{
    s->file = name;
    s->line = 0;
    FILE *f = opened(s, "wb");
    if (f == NULL)
        return wrong(s, "cannot be written");
    bool whole = fwrite(from->at, 1, from->count, f) == from->count;
    return (fclose(f) == 0 && whole) || wrong(s, "cannot be written");
}

/* The words that little endian bytes hold. */
static bool words_of(const struct stored *s, const struct bytes *from, struct words *into)
{
    if (from->count % 4 != 0)
        return wrong(s, "%zu bytes, which are no whole words", from->count);
    resize(into, from->count / 4);
    for (size_t i = 0; i < into->count; i++) {
        const uint8_t *b = from->at + 4 * i;
        into->at[i] = (uint32_t)b[0] | (uint32_t)b[1] << 8 | (uint32_t)b[2] << 16 | (uint32_t)b[3] << 24;
    }
    return true;
}

static void bytes_of(const struct words *from, struct bytes *into)
{
    into->at = room(into->at, 4 * from->count);
    into->count = 4 * from->count;
    for (size_t i = 0; i < into->count; i++)
        into->at[i] = (uint8_t)(from->at[i / 4] >> 8 * (i % 4));
}

/* Reads the line in place: blanks become 0 bytes. */
static bool read_line(const struct stored *s, char *text, struct line *into)
{
    char *arrow = strstr(text, " -> ");
    into->verb = NULL;
    resize(&into->words, 0);
    resize(&into->further, 0);
    into->colon = false;
    into->answer = NULL;
    if (arrow != NULL) {
        *arrow = 0;
        into->answer = arrow + 4;
    }
    for (char *at = text; *at != 0;) {
        size_t length = strcspn(at, " ");
        char *next = at + length + (at[length] != 0);
        at[length] = 0;
        if (into->verb == NULL) {
            into->verb = at;
        } else if (strcmp(at, ":") == 0 && !into->colon) {
            into->colon = true;
        } else if (length != 0) {
            unsigned long number = 0;
            for (const char *digit = at; *digit != 0; digit++) {
                if (*digit < '0' || *digit > '9' || length > 10)
                    return wrong(s, "'%s' is no number", at);
                number = 10 * number + (unsigned long)(*digit - '0');
            }
            if (number > UINT32_MAX)
                return wrong(s, "'%s' is no 32-bit word", at);
            put(into->colon ? &into->further : &into->words, (uint32_t)number);
        }
        at = next;
    }
    return true;
}

static sheafwinch_answer make_call(const struct stored *s, enum call call, const struct line *l)
{
    uint32_t *image = s->now.at;
    size_t words = s->now.count;
    const uint8_t *names = s->names.at;
    size_t bytes = s->names.count;
    uint32_t a[ARGUMENTS_MOST] = {0};
    memcpy(a, l->words.at, l->words.count * sizeof *a);
    sheafwinch_answer told = {0};
    switch (call) {
    case CHECK:
        told.count = 1;
        told.values[0] = sheafwinch_check(image, words);
        return told;
    case START: {
        sheafwinch_capacities room = {a[2], a[3], a[4], a[5], a[6], a[7]};
        return sheafwinch_start(image, words, a[0], a[1], room);
    }
    case MAKE_VARIABLE: return sheafwinch_make_variable(image, words);
    case MAKE_PRIMITIVE: return sheafwinch_make_primitive(image, words, a[0]);
    case MAKE_LIST: return sheafwinch_make_list(image, words, a[0]);
    case MAKE_LAMBDA: return sheafwinch_make_lambda(image, words, a[0], a[1]);
    case MAKE_ATTRSET: return sheafwinch_make_attrset(image, words, l->further.at, l->further.count, a[0], a[1], a[2]);
    case MAKE_NAMED: return sheafwinch_make_named(image, words, a[0], a[1]);
    case MAKE_NEG: return sheafwinch_make_neg(image, words, a[0]);
    case MAKE_INTER: return sheafwinch_make_inter(image, words, a[0], a[1]);
    case MAKE_UNION: return sheafwinch_make_union(image, words, a[0], a[1]);
    case MARK: return sheafwinch_mark(image, words, a[0]);
    case PUT_BOUND: return sheafwinch_put_bound(image, words, a[0], a[1], a[2]);
    case ENTER: return sheafwinch_enter(image, words);
    case EXIT: return sheafwinch_exit(image, words);
    case SET_LEVEL: return sheafwinch_set_level(image, words, a[0], a[1]);
    case OPEN: return sheafwinch_open(image, words, a[0], a[1], a[2], a[3]);
    case OPEN_EQUAL: return sheafwinch_open_equal(image, words, a[0], a[1], a[2], a[3]);
    case WORK: return sheafwinch_work(image, words, a[0]);
    case ABANDON: return sheafwinch_abandon(image, words);
    case ENTRY: return sheafwinch_entry(image, words, a[0]);
    case RECORD: return sheafwinch_record(image, words, a[0], a[1]);
    case DISJOINT: return sheafwinch_disjoint(image, words, a[0], a[1]);
    case CHECK_NAMES: return sheafwinch_check_names(names, bytes);
    case CHECK_NAME: return sheafwinch_check_name(names, bytes, a[0]);
    case COUNT_NAMES: return sheafwinch_count_names(names, bytes);
    case SHOW_NAME: return sheafwinch_show_name(names, bytes, a[0]);
    case COMPARE_NAMES: return sheafwinch_compare_names(names, bytes, a[0], a[1]);
    case FIND_NAME: {
        uint8_t *name = room(NULL, l->further.count);
        for (size_t i = 0; i < l->further.count; i++)
            name[i] = (uint8_t)l->further.at[i];
        told = sheafwinch_find_name(names, bytes, name, l->further.count);
        free(name);
        return told;
    }
    case RESOLVE: return sheafwinch_resolve(a[0], a[1], a[2]);
    case FROM_LEFT: return sheafwinch_from_left(a[0], a[1]);
    case AT_ONCE: return sheafwinch_at_once(a[0]);
    case CALLS: break;
    }
    return told;
}

/* The answer in words; what is to be 0 and is not is told too. */
static void tell(char out[ANSWER_ROOM], const sheafwinch_answer *a, bool instalment)
{
    static const char *kinds[] = {"done", "yes", "more", "failed", "refused", "unopened"};
    int at = a->kind <= SHEAFWINCH_UNOPENED ? snprintf(out, ANSWER_ROOM, "%s", kinds[a->kind])
                                            : snprintf(out, ANSWER_ROOM, "kind %u", (unsigned)a->kind);
    if (a->kind >= SHEAFWINCH_FAILED || a->number != 0)
        at += snprintf(out + at, (size_t)(ANSWER_ROOM - at), " %u", (unsigned)a->number);
    for (uint32_t i = 0; i < 8; i++)
        if (i < a->count || a->values[i] != 0)
            at += snprintf(out + at, (size_t)(ANSWER_ROOM - at), "%s%u", i < a->count ? " " : " unused ", (unsigned)a->values[i]);
    if (instalment || a->steps != 0)
        snprintf(out + at, (size_t)(ANSWER_ROOM - at), " steps %u", (unsigned)a->steps);
}

static bool same_words(const struct stored *s, const struct words *due, const char *due_name)
{
    if (s->now.count != due->count)
        return wrong(s, "%zu words, %s are %zu", s->now.count, due_name, due->count);
    for (size_t i = 0; i < due->count; i++)
        if (s->now.at[i] != due->at[i])
            return wrong(s, "word %zu is %u, %s is %u", i, (unsigned)s->now.at[i], due_name, (unsigned)due->at[i]);
    return true;
}

/* Makes a call and holds it to its stored answer. A read, a refusal at an opening, and a refused call leave every word; but one refused
 * at a step keeps the steps before it, and an opening the question. */
static bool run_call(struct stored *s, enum call call, const struct line *l)
{
    static struct words before;
    char told[ANSWER_ROOM];
    if (l->words.count != calls[call].arguments || l->colon != calls[call].further)
        return wrong(s, "%s takes %u words%s", l->verb, calls[call].arguments, calls[call].further ? ", a colon, and more" : "");
    if (call == FIND_NAME)
        for (size_t i = 0; i < l->further.count; i++)
            if (l->further.at[i] > UINT8_MAX)
                return wrong(s, "%u is no byte", (unsigned)l->further.at[i]);
    copy(&before, &s->now);
    sheafwinch_answer answer = make_call(s, call, l);
    bool opens = call == OPEN || call == OPEN_EQUAL;
    tell(told, &answer, opens || call == WORK);
    if (l->answer != NULL ? strcmp(told, l->answer) != 0 : !s->make)
        return wrong(s, "%s answers '%s', stored is '%s'", l->verb, told, l->answer == NULL ? "" : l->answer);
    bool reads = call == CHECK || call >= ENTRY;
    bool refused = answer.kind == SHEAFWINCH_REFUSED && answer.steps == 0 && !opens;
    if ((reads || refused || answer.kind == SHEAFWINCH_UNOPENED) && !same_words(s, &before, "before the call it"))
        return false;
    if (s->make && l->answer == NULL)
        say(&s->said, " -> %s", told);
    return true;
}

/* In `make`: a call that the file does not have yet, with its answer. */
static bool add_call(struct stored *s, enum call call, unsigned count, uint32_t first, uint32_t second)
{
    uint32_t words[] = {first, second};
    struct line l = {.verb = calls[call].name, .words = {words, count}, .further = {words, 0}};
    say(&s->said, "%s", l.verb);
    for (unsigned i = 0; i < count; i++)
        say(&s->said, " %u", (unsigned)words[i]);
    bool right = run_call(s, call, &l);
    say(&s->said, "\n");
    return right;
}

/* In `make`, for the line `reads`: check, every entry, every record. */
static bool add_reads(struct stored *s)
{
    bool right = add_call(s, CHECK, 0, 0, 0);
    for (uint32_t n = 0; right && s->now.count >= 27 && n < s->now.at[11]; n++)
        right = add_call(s, ENTRY, 1, n, 0);
    for (uint32_t region = 1; right && s->now.count >= 27 && region <= 6; region++)
        for (uint32_t n = 0; right && n < s->now.at[8 + 3 * region]; n++)
            right = add_call(s, RECORD, 2, region, n);
    return right;
}

/* In `make`, for the line `words`: the words, as runs of those that are not 0. */
static void add_words(struct stored *s)
{
    say(&s->said, "words %zu\n", s->now.count);
    for (size_t i = 0; i < s->now.count; i++) {
        if (s->now.at[i] == 0)
            continue;
        say(&s->said, "at %zu :", i);
        for (size_t end = i + WORDS_A_LINE; i < end && i < s->now.count; i++)
            say(&s->said, " %u", (unsigned)s->now.at[i]);
        say(&s->said, "\n");
        i--;
    }
}

/* What a file has said so far: how many calls, and the words that it lists. */
struct script {
    unsigned calls, listed;
    bool open;             /* a list of words is being read */
    struct words due;
};

static bool close_list(const struct stored *s, struct script *script)
{
    bool was = script->open;
    script->open = false;
    return !was || same_words(s, &script->due, "stored");
}

static bool run_line(struct stored *s, struct script *script, const struct line *l)
{
    bool next = strcmp(s->file, "next") == 0;
    size_t plain = l->words.count;
    if (strcmp(l->verb, "at") == 0 && script->open && plain == 1 && l->colon && l->answer == NULL) {
        if (l->words.at[0] > script->due.count || l->further.count > script->due.count - l->words.at[0])
            return wrong(s, "past the %zu words", script->due.count);
        memcpy(script->due.at + l->words.at[0], l->further.at, l->further.count * sizeof *l->further.at);
        return true;
    }
    if (!close_list(s, script))
        return false;
    for (enum call call = CHECK; call < CALLS; call++)
        if (strcmp(l->verb, calls[call].name) == 0) {
            script->calls++;
            script->listed = 0;
            return run_call(s, call, l);
        }
    if (l->colon || l->answer != NULL)
        return wrong(s, "'%s' is no call", l->verb);
    if (strcmp(l->verb, "length") == 0 && plain == 1) {
        resize(&s->now, l->words.at[0]);
        return true;
    }
    if (strcmp(l->verb, "set") == 0 && plain == 2 && !next) {
        if (l->words.at[0] >= s->now.count)
            return wrong(s, "there are %zu words", s->now.count);
        s->now.at[l->words.at[0]] = l->words.at[1];
        return true;
    }
    if (strcmp(l->verb, "load") == 0 && plain == 0 && next) {
        copy(&s->now, &s->image);
        return true;
    }
    if (strcmp(l->verb, "words") == 0 && plain == 1 && next) {
        script->open = true;
        script->listed = 1;
        script->due.count = 0;
        resize(&script->due, l->words.at[0]);
        return true;
    }
    return wrong(s, "'%s' is no line of this file", l->verb);
}

/* In `make`: the lines that stand for several. */
static bool drafted(struct stored *s, struct script *script, const char *text, bool *right)
{
    if (!s->make || strcmp(s->file, "next") != 0)
        return false;
    if (strcmp(text, "reads") == 0) {
        script->calls++;
        *right = add_reads(s);
        return true;
    }
    if (strcmp(text, "words") == 0) {
        script->listed = 1;
        add_words(s);
        return true;
    }
    return false;
}

/* Runs `made` or `next` on the words that there are now. */
static bool run_file(struct stored *s, const char *name)
{
    static struct bytes file;
    static struct line l;
    static struct script script;
    bool right = true;
    if (!read_file(s, name, &file))
        return false;
    if (file.count == 0 || file.at[file.count - 1] != '\n' || strlen((char *)file.at) != file.count)
        return wrong(s, "no text: no line, the last one without its end, or a 0 byte");
    s->said.count = 0;
    script.calls = script.listed = 0;
    script.open = false;
    for (char *text = (char *)file.at; right && *text != 0;) {
        size_t length = strcspn(text, "\n");
        text[length] = 0;
        s->line++;
        if (!drafted(s, &script, text, &right)) {
            say_text(&s->said, text);
            if (length != 0 && text[0] != '#')
                right = read_line(s, text, &l) && run_line(s, &script, &l);
            say_text(&s->said, "\n");
        }
        text += length + 1;
    }
    if (!right || !close_list(s, &script))
        return false;
    if (script.calls == 0)
        return wrong(s, "no call");
    if (strcmp(name, "next") == 0 && !script.listed)
        return wrong(s, "does not end with its words");
    return true;
}

static bool test(const char *folder)
{
    static struct bytes image;
    static struct stored s;
    s.folder = folder;
    s.make = false;
    if (!read_file(&s, "image", &image) || !words_of(&s, &image, &s.image) || !read_file(&s, "names", &s.names))
        return false;
    s.now.count = 0;
    if (!run_file(&s, "made"))
        return false;
    s.line = 0;
    if (!same_words(&s, &s.image, "in image"))
        return false;
    copy(&s.now, &s.image);
    return run_file(&s, "next");
}

static bool make(const char *folder)
{
    static struct bytes image, made;
    static struct stored s;
    s.folder = folder;
    s.make = true;
    s.file = "image";
    FILE *there = opened(&s, "rb");
    if (there != NULL)
        return wrong(&s, "is there already: a stored image is not written again");
    if (!read_file(&s, "names", &s.names) || !run_file(&s, "made"))
        return false;
    copy(&s.image, &s.now);
    made = s.said;
    s.said = (struct bytes){NULL, 0};
    if (!run_file(&s, "next"))
        return false;
    bytes_of(&s.image, &image);
    return write_file(&s, "made", &made) && write_file(&s, "next", &s.said) && write_file(&s, "image", &image);
}

int main(int count, char **words)
{
    bool right = true;
    if (count >= 3 && strcmp(words[1], "test") == 0) {
        for (int i = 2; i < count; i++)
            right &= test(words[i]);
    } else if (count == 3 && strcmp(words[1], "make") == 0) {
        right = make(words[2]);
    } else {
        printf("usage: replay test FOLDER... | replay make FOLDER\n");
        return 2;
    }
    return right ? 0 : 1;
}
