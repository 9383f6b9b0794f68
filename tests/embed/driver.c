/* driver.c: makes the calls that standard input asks for, and writes what each came to. tests/embed/driving.py is the other side.
 *
 * A request is a line: a call without `sct_site_` or `sct_`, the number of a handle, then each argument. A number is itself. A text is its
 * length, and its bytes follow the line. Counts are a text of 8 bytes each. A reply is a line: the fields of the result, then how
 * often the call asked for memory, how often it was refused, and how many bytes follow: what the call copied or wrote, or its answer.
 *
 *     refuse 0 FIRST LAST    refuses what the next call asks for from its time FIRST on up to its time LAST
 *     snapshot HANDLE TO     the handle TO has a snapshot of the site
 *     held 0                 how many blocks of memory the library has, and their bytes. The driver has none while it waits for a request
 *     move HANDLE FROM       the site of the handle FROM is at HANDLE from now on, and FROM is empty
 *     stack 0                the most bytes of the stack that were used so far; not under valgrind
 *     layout 0               the size of each structure, and where its fields are
 *
 * All runs on a thread with 256 KB of stack. Each text is in memory of just its length. A text or a room without bytes has an address, and
 * none if the driver is started with the word `null`. What is written has bytes around it that have to stay. The end closes all
 * handles, so that memory which is left was lost.
 */
#define _GNU_SOURCE
#include <malloc.h>
#include <niluppang.h>
#include <pthread.h>
#include <stddef.h>
#include <stdio.h>
#include <stdlib.h>
#include <string.h>
#include <sys/mman.h>

#define HANDLES 1025
#define STACK (256 * 1024)
#define GUARD 16
#define UNTOUCHED 0xA5

struct bytes {
    uint8_t *at;
    size_t length;
};

struct result {
    unsigned long fields[8];
    int count;
    struct bytes bytes;
};

/* a call, how many of its arguments are numbers, how many are texts after them, and whether it makes an answer */
static const struct form {
    const char *name;
    int numbers, texts;
    bool makes_answer;
} forms[] = {
    {"open", 2, 0, false},        {"restore", 2, 2, true},       {"close", 0, 0, false},        {"take", 0, 1, false},
    {"take_lines", 0, 1, true},   {"accept", 0, 1, false},       {"counts", 1, 0, false},       {"vector_text", 0, 0, true},
    {"snapshot", 1, 0, false},
    {"cut", 0, 1, true},          {"cut_above", 0, 1, true},     {"entries", 3, 0, true},
    {"digest", 2, 0, true},       {"digests_text", 0, 0, true},
    {"journal_text", 1, 0, true}, {"newest_text", 1, 0, true},
    {"reading_text", 0, 1, true}, {"evaluate", 0, 0, false},     {"archive_text", 0, 0, true},  {"status_text", 0, 0, true},
    {"totals_text", 0, 0, true},  {"contradictions_text", 0, 0, true}, {"report", 0, 3, true},  {"transfer_text", 0, 2, true},
    {"kept_text", 0, 1, true},    {"closed_text", 0, 1, true},
    {"messages_text", 0, 2, true}, {"bank_totals", 0, 1, true},  {"changes", 0, 0, true},       {"answer", 1, 0, false},
    {"take_as", 0, 2, false},     {"transfer_text_for", 0, 3, true}, {"messages_text_for", 0, 3, true},
    {"bank_totals_for", 0, 2, true}, {"report_for", 0, 4, true},
    {"answer_part", 2, 0, false}, {"answer_end", 0, 0, true},    {"why", 1, 0, false},          {"code_name", 2, 0, false},
    {"code_text", 2, 0, false},   {"version", 0, 0, false},      {"layout", 0, 0, false},       {"refuse", 2, 0, false},
    {"stack", 0, 0, false},       {"held", 0, 0, false},         {"move", 1, 0, false},
};

static bool gives_null;
static sct_site handles[HANDLES];
static uint8_t *stack;

static void must(bool holds, const char *what) {
    if (holds) return;
    fprintf(stderr, "driver: %s\n", what);
    fflush(stdout);
    abort();
}

/* ---- memory that is refused, and memory that is held: the linker has malloc, calloc, realloc and free lead here */

static bool is_counting;
static unsigned long asked, refused, first_refused, last_refused, held_blocks, held_bytes;

void *__real_malloc(size_t size);
void *__real_calloc(size_t many, size_t size);
void *__real_realloc(void *old, size_t size);
void __real_free(void *old);
void *__wrap_malloc(size_t size);
void *__wrap_calloc(size_t many, size_t size);
void *__wrap_realloc(void *old, size_t size);
void __wrap_free(void *old);

static bool is_refused(void) {
    if (!is_counting) return false;
    asked++;
    if (asked < first_refused || asked > last_refused) return false;
    refused++;
    return true;
}

/* A block that is held from now on. */
static void *held(void *block) {
    if (block == NULL) return NULL;
    held_blocks++;
    held_bytes += malloc_usable_size(block);
    return block;
}

static void *held_again(void *old, size_t size) {
    size_t bytes = old == NULL ? 0 : malloc_usable_size(old);
    void *block = __real_realloc(old, size);
    if (block == NULL) return NULL;
    held_bytes -= bytes;
    held_blocks -= old != NULL;
    return held(block);
}

void *__wrap_malloc(size_t size) { return is_refused() ? NULL : held(__real_malloc(size)); }
void *__wrap_calloc(size_t many, size_t size) { return held(__real_calloc(many, size)); }
void *__wrap_realloc(void *old, size_t size) { return is_refused() ? NULL : held_again(old, size); }

void __wrap_free(void *old) {
    if (old == NULL) return;
    held_blocks--;
    held_bytes -= malloc_usable_size(old);
    __real_free(old);
}

/* ---- texts */

/* Bytes of standard input, in memory of just this length. */
static struct bytes bytes_in(size_t length) {
    struct bytes bytes = {NULL, 0};
    if (length == 0 && gives_null) return bytes;
    bytes = (struct bytes){malloc(length > 0 ? length : 1), length};
    must(bytes.at != NULL && fread(bytes.at, 1, length, stdin) == length, "the input ends early");
    return bytes;
}

/* Room for a number of bytes, with bytes around it that have to stay. */
static struct bytes guarded(size_t length) {
    struct bytes bytes = {malloc(length + 2 * GUARD), length};
    must(bytes.at != NULL, "out of memory");
    memset(bytes.at, UNTOUCHED, length + 2 * GUARD);
    bytes.at += GUARD;
    return bytes;
}

/* Whether some bytes were not written. */
static bool is_untouched(const uint8_t *at, size_t length) {
    for (size_t place = 0; place < length; place++)
        if (at[place] != UNTOUCHED) return false;
    return true;
}

static void check_guards(struct bytes bytes) {
    must(is_untouched(bytes.at - GUARD, GUARD) && is_untouched(bytes.at + bytes.length, GUARD), "a byte outside was written");
}

static void let_go(struct bytes guarded) { free(guarded.at - GUARD); }

/* Where a call is to write into a room. */
static uint8_t *room_of(struct bytes guarded) { return guarded.length == 0 && gives_null ? NULL : guarded.at; }

/* ---- calls */

static struct result of_outcome(sct_outcome made) {
    return (struct result){{made.ok, made.code, made.place, made.length, made.reserved}, 5, {NULL, 0}};
}

static struct result of_take(sct_taken took) {
    return (struct result){{took.ok, took.code, took.is_repeat, took.place, took.number, took.reserved}, 6, {NULL, 0}};
}

/* Three parts of a third of the answer each, and one after its end, are the answer. */
static void check_parts(sct_site *site, struct bytes answer) {
    size_t third = answer.length / 3 + 1;
    for (size_t from = 0; from <= answer.length; from += third) {
        struct bytes part = guarded(third);
        size_t wanted = answer.length - from < third ? answer.length - from : third;
        sct_outcome copied = sct_site_answer_part(site, from, part.at, part.length);
        must(copied.ok && copied.length == wanted && memcmp(part.at, answer.at + from, wanted) == 0, "a part is not of the answer");
        must(is_untouched(part.at + wanted, third - wanted), "more was written than a part");
        check_guards(part);
        let_go(part);
    }
    must(sct_site_answer_part(site, answer.length, NULL, 0).length == 0, "there is a part at the end of the answer");
}

/* The answer that a call made. In too little room it writes nothing. */
static struct bytes answer_of(sct_site *site, size_t length) {
    if (length > 0) {
        struct bytes little = guarded(length - 1);
        sct_outcome none = sct_site_answer(site, little.at, little.length);
        must(none.ok && none.length == length && is_untouched(little.at, little.length), "too little room was written into");
        check_guards(little);
        let_go(little);
    }
    struct bytes bytes = guarded(length);
    sct_outcome copied = sct_site_answer(site, room_of(bytes), bytes.length);
    must(copied.ok && copied.code == 0 && copied.length == length, "an answer was not copied");
    check_guards(bytes);
    check_parts(site, bytes);
    return bytes;
}

static bool is(const char *name, const char *other) { return strcmp(name, other) == 0; }

/* Another handle than one, which a request names. */
static sct_site *other_than(const sct_site *site, size_t handle) {
    must(handle < HANDLES && site != &handles[handle], "there is no such other handle");
    return &handles[handle];
}

/* A call that returns an outcome and writes nothing. */
static sct_outcome outcome_of(const char *name, sct_site *site, const unsigned long *n, const struct bytes *t) {
    if (is(name, "restore"))
        return sct_site_restore(site, (uint16_t)n[0], (uint16_t)n[1], t[0].at, t[0].length, t[1].at, t[1].length);
    if (is(name, "snapshot")) return sct_site_snapshot(site, other_than(site, n[0]));
    if (is(name, "vector_text")) return sct_site_vector_text(site);
    if (is(name, "cut")) return sct_site_cut(site, t[0].at, t[0].length);
    if (is(name, "cut_above")) return sct_site_cut_above(site, (const uint64_t *)(void *)t[0].at, t[0].length / sizeof(uint64_t));
    if (is(name, "entries")) return sct_site_entries(site, (uint16_t)n[0], n[1], n[2]);
    if (is(name, "digest")) return sct_site_digest(site, (uint16_t)n[0], n[1]);
    if (is(name, "digests_text")) return sct_site_digests_text(site);
    if (is(name, "journal_text")) return sct_site_journal_text(site, n[0]);
    if (is(name, "newest_text")) return sct_site_newest_text(site, n[0]);
    if (is(name, "reading_text")) return sct_site_reading_text(site, t[0].at, t[0].length);
    if (is(name, "evaluate")) return sct_site_evaluate(site);
    if (is(name, "answer_end")) return sct_site_answer_end(site);
    if (is(name, "archive_text")) return sct_site_archive_text(site);
    if (is(name, "status_text")) return sct_site_status_text(site);
    if (is(name, "totals_text")) return sct_site_totals_text(site);
    if (is(name, "contradictions_text")) return sct_site_contradictions_text(site);
    if (is(name, "report"))
        return sct_site_report(site, t[0].at, t[0].length, t[1].at, t[1].length, t[2].at, t[2].length);
    if (is(name, "kept_text")) return sct_site_kept_text(site, t[0].at, t[0].length);
    if (is(name, "closed_text")) return sct_site_closed_text(site, t[0].at, t[0].length);
    if (is(name, "transfer_text")) return sct_site_transfer_text(site, t[0].at, t[0].length, t[1].at, t[1].length);
    if (is(name, "messages_text")) return sct_site_messages_text(site, t[0].at, t[0].length, t[1].at, t[1].length);
    if (is(name, "bank_totals")) return sct_site_bank_totals(site, t[0].at, t[0].length);
    if (is(name, "transfer_text_for"))
        return sct_site_transfer_text_for(site, t[0].at, t[0].length, t[1].at, t[1].length, t[2].at, t[2].length);
    if (is(name, "messages_text_for"))
        return sct_site_messages_text_for(site, t[0].at, t[0].length, t[1].at, t[1].length, t[2].at, t[2].length);
    if (is(name, "bank_totals_for")) return sct_site_bank_totals_for(site, t[0].at, t[0].length, t[1].at, t[1].length);
    if (is(name, "report_for"))
        return sct_site_report_for(site, t[0].at, t[0].length, t[1].at, t[1].length, t[2].at, t[2].length, t[3].at, t[3].length);
    must(is(name, "changes"), "there is no such call");
    return sct_site_changes(site);
}

static struct result counts_of(sct_site *site, size_t items) {
    struct bytes bytes = guarded(items * sizeof(uint64_t));
    is_counting = true;
    struct result result = of_outcome(sct_site_counts(site, (uint64_t *)(void *)room_of(bytes), items));
    is_counting = false;
    check_guards(bytes);
    must(result.fields[0] || is_untouched(bytes.at, bytes.length), "refused counts were written");
    bytes.length = result.fields[0] ? bytes.length : 0;
    result.bytes = bytes;
    return result;
}

/* A result with what was written into a room, which are the first bytes. */
static struct result written(struct result result, struct bytes room, size_t length) {
    check_guards(room);
    must(length <= room.length && is_untouched(room.at + length, room.length - length), "more was written than the length says");
    room.length = length;
    result.bytes = room;
    return result;
}

/* A call that copies a text, or a part of one. */
static struct result copied(const char *name, sct_site *site, const unsigned long *n) {
    bool is_part = is(name, "answer_part");
    struct bytes room = guarded(n[is_part]);
    uint8_t *at = room_of(room);
    sct_outcome made;
    is_counting = true;
    if (is_part)
        made = sct_site_answer_part(site, n[0], at, room.length);
    else if (is(name, "why"))
        made = sct_site_why(site, at, room.length);
    else
        made = sct_site_answer(site, at, room.length);
    is_counting = false;
    return written(of_outcome(made), room, made.ok && made.length <= room.length ? made.length : 0);
}

/* A call that copies a text of a number. */
static struct result of_code(const char *name, const unsigned long *n) {
    struct bytes room = guarded(n[1]);
    uint8_t *at = room_of(room);
    is_counting = true;
    size_t length = is(name, "code_name") ? sct_code_name((uint8_t)n[0], at, room.length) : sct_code_text((uint8_t)n[0], at, room.length);
    is_counting = false;
    return written((struct result){{length}, 1, {NULL, 0}}, room, length <= room.length ? length : 0);
}

/* The size of each structure, and where its fields are. */
static struct result layout(void) {
    struct bytes text = guarded(256);
    text.length = (size_t)snprintf((char *)text.at, text.length,
        "sct_site %zu\nsct_outcome %zu %zu %zu %zu %zu %zu\nsct_taken %zu %zu %zu %zu %zu %zu %zu\n"
        "sct_lines %zu %zu %zu %zu %zu %zu %zu %zu %zu\nsct_accepted %zu %zu %zu %zu %zu %zu\n",
        sizeof(sct_site), sizeof(sct_outcome), offsetof(sct_outcome, ok), offsetof(sct_outcome, code), offsetof(sct_outcome, place),
        offsetof(sct_outcome, length), offsetof(sct_outcome, reserved), sizeof(sct_taken), offsetof(sct_taken, ok),
        offsetof(sct_taken, code), offsetof(sct_taken, is_repeat), offsetof(sct_taken, place), offsetof(sct_taken, number),
        offsetof(sct_taken, reserved), sizeof(sct_lines), offsetof(sct_lines, ok), offsetof(sct_lines, code), offsetof(sct_lines, place),
        offsetof(sct_lines, fresh), offsetof(sct_lines, repeats), offsetof(sct_lines, refused), offsetof(sct_lines, length),
        offsetof(sct_lines, reserved), sizeof(sct_accepted), offsetof(sct_accepted, ok), offsetof(sct_accepted, code),
        offsetof(sct_accepted, place), offsetof(sct_accepted, fresh), offsetof(sct_accepted, reserved));
    return (struct result){{0}, 0, text};
}

static size_t stack_used(void) {
    size_t free_bytes = 0;
    while (stack[free_bytes] == UNTOUCHED) free_bytes++;
    return STACK - free_bytes;
}

/* Makes a call. What it asks for as memory is counted, and refused if it has to be. */
static struct result called(const char *name, sct_site *site, const unsigned long *n, const struct bytes *t) {
    struct result result = {{0}, 0, {NULL, 0}};
    is_counting = true;
    if (is(name, "open")) {
        result = of_outcome(sct_site_open(site, (uint16_t)n[0], (uint16_t)n[1]));
    } else if (is(name, "close")) {
        sct_site_close(site);
    } else if (is(name, "take")) {
        result = of_take(sct_site_take(site, t[0].at, t[0].length));
    } else if (is(name, "take_as")) {
        result = of_take(sct_site_take_as(site, t[0].at, t[0].length, t[1].at, t[1].length));
    } else if (is(name, "accept")) {
        sct_accepted accepted = sct_site_accept(site, t[0].at, t[0].length);
        result = (struct result){{accepted.ok, accepted.code, accepted.place, accepted.fresh, accepted.reserved}, 5, {NULL, 0}};
    } else if (is(name, "take_lines")) {
        sct_lines lines = sct_site_take_lines(site, t[0].at, t[0].length);
        result = (struct result){{lines.ok, lines.code, lines.place, lines.fresh, lines.repeats, lines.refused, lines.length,
                                  lines.reserved}, 8, {NULL, 0}};
    } else if (is(name, "version")) {
        result = (struct result){{sct_version()}, 1, {NULL, 0}};
    } else {
        result = of_outcome(outcome_of(name, site, n, t));
    }
    is_counting = false;
    return result;
}

/* The site of one handle goes to another, which is empty. */
static struct result moved(sct_site *site, size_t from) {
    sct_site *old = other_than(site, from);
    memcpy(site, old, sizeof *site);
    memset(old, 0, sizeof *site);
    return (struct result){{0}, 0, {NULL, 0}};
}

/* What a request comes to. */
static struct result done(const struct form *form, sct_site *site, const unsigned long *n, const struct bytes *t) {
    if (is(form->name, "stack")) return (struct result){{stack_used()}, 1, {NULL, 0}};
    if (is(form->name, "held")) return (struct result){{held_blocks, held_bytes}, 2, {NULL, 0}};
    if (is(form->name, "move")) return moved(site, n[0]);
    if (is(form->name, "layout")) return layout();
    if (is(form->name, "counts")) return counts_of(site, n[0]);
    if (is(form->name, "answer") || is(form->name, "answer_part") || is(form->name, "why")) return copied(form->name, site, n);
    if (is(form->name, "code_name") || is(form->name, "code_text")) return of_code(form->name, n);
    struct result result = called(form->name, site, n, t);
    if (form->makes_answer && result.fields[0]) result.bytes = answer_of(site, result.fields[result.count - 2]); /* before `reserved` */
    return result;
}

static void write_reply(struct result result) {
    for (int place = 0; place < result.count; place++) printf("%lu ", result.fields[place]);
    printf("%lu %lu %zu\n", asked, refused, result.bytes.length);
    if (result.bytes.at == NULL) return;
    fwrite(result.bytes.at, 1, result.bytes.length, stdout);
    let_go(result.bytes);
}

/* ---- requests */

static const struct form *form_of(const char *name) {
    for (size_t place = 0; place < sizeof forms / sizeof *forms; place++)
        if (is(forms[place].name, name)) return &forms[place];
    must(false, "there is no such request");
    return NULL;
}

/* Reads a request and writes its reply. False at the end of the input. */
static bool served(void) {
    char name[32];
    size_t handle;
    unsigned long numbers[3] = {0};
    struct bytes texts[4] = {{NULL, 0}};
    if (scanf("%31s %zu", name, &handle) != 2) return false;
    const struct form *form = form_of(name);
    must(handle < HANDLES, "there is no such handle");
    for (int place = 0; place < form->numbers; place++) must(scanf(" %lu", &numbers[place]) == 1, "a number is missing");
    for (int place = 0; place < form->texts; place++) must(scanf(" %zu", &texts[place].length) == 1, "a length is missing");
    must(getchar() == '\n', "a request does not end");
    if (is(name, "refuse")) {
        first_refused = numbers[0];
        last_refused = numbers[1];
        return true;
    }
    for (int place = 0; place < form->texts; place++) texts[place] = bytes_in(texts[place].length);
    asked = refused = 0;
    write_reply(done(form, &handles[handle], numbers, texts));
    first_refused = last_refused = 0;
    for (int place = 0; place < form->texts; place++) free(texts[place].at);
    return true;
}

static void *serve(void *nothing) {
    while (served()) continue;
    for (size_t handle = 0; handle < HANDLES; handle++) sct_site_close(&handles[handle]);
    return nothing;
}

int main(int words, char **word) {
    pthread_t thread;
    pthread_attr_t attributes;
    gives_null = words == 2 && is(word[1], "null");
    stack = mmap(NULL, STACK, PROT_READ | PROT_WRITE, MAP_PRIVATE | MAP_ANONYMOUS | MAP_STACK, -1, 0);
    must(stack != MAP_FAILED, "there is no stack");
    memset(stack, UNTOUCHED, STACK);
    must(pthread_attr_init(&attributes) == 0 && pthread_attr_setstack(&attributes, stack, STACK) == 0, "the stack is refused");
    must(pthread_create(&thread, &attributes, serve, NULL) == 0 && pthread_join(thread, NULL) == 0, "there is no thread");
    return fflush(stdout) == 0 ? 0 : 1;
}
