/* library.c: a stand-in for libniluppang.so, of the definitions. Each call is handed to a process of library.py, which answers it.
 *
 * A request is a line: a call without `sct_raw_`, the number of a site, three numbers, and the lengths of four texts, which follow the line.
 * A reply is a line of the fields ok, code, place, length, is_repeat, number, fresh, repeats and refused, and the length of a text, which
 * follows. SERVER is the path of library.py. It is for tests of bindings where nothing is proved: it is slow, and ends the process after
 * any fault of its own. It ends the process after a null pointer too, which no function of the library is given.
 *
 * A call that may be refused with 65 asks malloc for memory once, and is refused if it gets none. What else it needs, calloc gives.
 */
#define _GNU_SOURCE
#include <fcntl.h>
#include <niluppang.h>
#include <pthread.h>
#include <spawn.h>
#include <stdio.h>
#include <stdlib.h>
#include <string.h>
#include <unistd.h>

#define MOST ((size_t)1 << 62) /* room for any text */

extern char **environ;

struct held {
    long number;
    uint8_t *answer;
    size_t length;
};

struct text {
    const void *at;
    size_t length;
};

struct texts {
    struct text each[4];
};

struct numbers {
    unsigned long first, second, third;
};

struct reply {
    unsigned long ok, code, place, length, is_repeat, number, fresh, repeats, refused;
    uint8_t *text;
    size_t size;
};

static pthread_mutex_t lock = PTHREAD_MUTEX_INITIALIZER;
static int to = -1, from = -1;
static long sites;
static const struct texts none;
static const struct numbers zero = {0, 0, 0};

#define GIVEN(...) ((struct texts){{__VA_ARGS__}})

static void must(bool holds) {
    if (!holds) abort();
}

static void begin(void) {
    int in[2], out[2];
    pid_t process;
    posix_spawn_file_actions_t actions;
    char *words[] = {"python3", SERVER, 0};
    if (to >= 0) return;
    must(!pipe2(in, O_CLOEXEC) && !pipe2(out, O_CLOEXEC) && !posix_spawn_file_actions_init(&actions));
    posix_spawn_file_actions_adddup2(&actions, in[0], 0);
    posix_spawn_file_actions_adddup2(&actions, out[1], 1);
    must(!posix_spawnp(&process, words[0], &actions, 0, words, environ));
    posix_spawn_file_actions_destroy(&actions);
    close(in[0]);
    close(out[1]);
    to = in[1];
    from = out[0];
}

static void write_all(const void *at, size_t length) {
    while (length) {
        ssize_t wrote = write(to, at, length);
        must(wrote > 0);
        at = (const char *)at + wrote;
        length -= (size_t)wrote;
    }
}

static void read_all(void *at, size_t length) {
    while (length) {
        ssize_t had = read(from, at, length);
        must(had > 0);
        at = (char *)at + had;
        length -= (size_t)had;
    }
}

/* The first line of a reply. */
static void read_line(char *line, size_t room) {
    size_t length = 0;
    do {
        must(length < room);
        read_all(line + length, 1);
    } while (line[length++] != '\n');
    line[length - 1] = 0;
}

static struct text of(const void *at, size_t length) {
    struct text it = {at, length};
    must(at != 0);
    return it;
}

static struct numbers one(unsigned long first) {
    struct numbers it = {first, 0, 0};
    return it;
}

/* The reply to a request. Its text is freed by who asks. */
static struct reply asked(const char *call, long site, struct numbers n, struct texts texts) {
    struct reply it;
    int place;
    char line[256];
    begin();
    place = snprintf(line, sizeof line, "%s %ld %lu %lu %lu %zu %zu %zu %zu\n", call, site, n.first, n.second, n.third,
                     texts.each[0].length, texts.each[1].length, texts.each[2].length, texts.each[3].length);
    write_all(line, (size_t)place);
    for (place = 0; place < 4; place++) write_all(texts.each[place].at, texts.each[place].length);
    read_line(line, sizeof line);
    must(sscanf(line, "%lu %lu %lu %lu %lu %lu %lu %lu %lu %zu", &it.ok, &it.code, &it.place, &it.length, &it.is_repeat, &it.number,
                &it.fresh, &it.repeats, &it.refused, &it.size) == 10);
    it.text = calloc(it.size + 1, 1);
    must(it.text != 0);
    read_all(it.text, it.size);
    return it;
}

static bool is_out_of_memory(void) {
    void *volatile memory = malloc(1);
    free(memory);
    return memory == 0;
}

static struct reply refused(uint8_t code) {
    struct reply it = {0, code, 0, 0, 0, 0, 0, 0, 0, 0, 0};
    return it;
}

/* The reply to a call at a site. */
static struct reply told(sct_site *site, const char *call, struct numbers n, struct texts texts) {
    const struct held *held = site->private_address;
    struct reply it;
    if (!site->private_is_full) return refused(SCT_EMPTY);
    pthread_mutex_lock(&lock);
    it = asked(call, held->number, n, texts);
    pthread_mutex_unlock(&lock);
    return it;
}

/* The reply to a call that is refused if there is no memory. */
static struct reply tried(sct_site *site, const char *call, struct numbers n, struct texts texts) {
    return told(site, site->private_is_full && is_out_of_memory() ? "starved" : call, n, texts);
}

/* A call at a site that makes no text. */
static struct reply called(sct_site *site, const char *call, struct texts texts) {
    struct reply it = tried(site, call, zero, texts);
    free(it.text);
    it.text = 0;
    return it;
}

/* The answer of a site becomes a text, which was allocated. */
static void answers(sct_site *site, uint8_t *text, size_t length) {
    struct held *held = site->private_address;
    free(held->answer);
    held->answer = text;
    held->length = length;
}

/* A call at a site that makes an answer. */
static struct reply made(sct_site *site, const char *call, struct numbers n, struct texts texts) {
    struct reply it = tried(site, call, n, texts);
    if (it.ok)
        answers(site, it.text, it.size);
    else
        free(it.text);
    it.text = 0;
    return it;
}

static sct_outcome outcome(struct reply it) {
    sct_outcome found = {it.ok, it.code, it.place, it.length, 0};
    return found;
}

static sct_taken taken(struct reply it) {
    sct_taken found = {it.ok, it.code, it.is_repeat, it.place, it.number, 0};
    return found;
}

static sct_outcome made_of(sct_site *site, const char *call, struct texts texts) {
    return outcome(made(site, call, zero, texts));
}

/* A new site for a handle, which has an answer. Its number is that of the process. */
static void fill(sct_site *site, struct reply it) {
    struct held *held = calloc(1, sizeof *held);
    must(held != 0);
    held->number = sites;
    held->answer = it.text;
    held->length = it.size;
    site->private_is_full = true;
    site->private_address = held;
}

static sct_outcome begun(sct_site *site, const char *call, uint16_t number, uint16_t group, struct texts texts) {
    const struct numbers numbers = {number, group, 0};
    struct reply it;
    if (site->private_is_full) return outcome(refused(SCT_FULL));
    if (is_out_of_memory()) return outcome(refused(SCT_MEMORY));
    pthread_mutex_lock(&lock);
    it = asked(call, ++sites, numbers, texts);
    if (it.ok)
        fill(site, it);
    else
        free(it.text);
    pthread_mutex_unlock(&lock);
    return outcome(it);
}

uint32_t sct_version(void) {
    return SCT_VERSION_NUMBER;
}

sct_outcome sct_raw_open(sct_site *site, uint16_t number, uint16_t group) {
    return begun(site, "open", number, group, none);
}

sct_outcome sct_raw_restore(sct_site *site, uint16_t number, uint16_t group, const uint8_t *journal, size_t journal_length,
                            const uint8_t *delta, size_t delta_length) {
    return begun(site, "restore", number, group, GIVEN(of(journal, journal_length), of(delta, delta_length)));
}

void sct_raw_close(sct_site *site) {
    struct reply it = told(site, "close", zero, none);
    if (!site->private_is_full) return;
    free(it.text);
    free(((struct held *)site->private_address)->answer);
    free(site->private_address);
    site->private_address = 0;
    site->private_is_full = false;
}

sct_taken sct_raw_take(sct_site *site, const uint8_t *json, size_t length) {
    return taken(called(site, "take", GIVEN(of(json, length))));
}

sct_taken sct_raw_take_as(sct_site *site, const uint8_t *banks, size_t banks_length, const uint8_t *json, size_t length) {
    return taken(called(site, "take_as", GIVEN(of(banks, banks_length), of(json, length))));
}

sct_lines sct_raw_take_lines(sct_site *site, const uint8_t *text, size_t length) {
    struct reply it = made(site, "take_lines", zero, GIVEN(of(text, length)));
    sct_lines found = {it.ok, it.code, it.place, it.fresh, it.repeats, it.refused, it.length, 0};
    return found;
}

sct_accepted sct_raw_accept(sct_site *site, const uint8_t *text, size_t length) {
    struct reply it = called(site, "accept", GIVEN(of(text, length)));
    sct_accepted found = {it.ok, it.code, it.place, it.fresh, 0};
    return found;
}

sct_outcome sct_raw_snapshot(sct_site *site, sct_site *snapshot) {
    const struct held *other = snapshot->private_address;
    struct reply it;
    if (!site->private_is_full) return outcome(refused(SCT_EMPTY));
    pthread_mutex_lock(&lock);
    it = asked(!snapshot->private_is_full && is_out_of_memory() ? "starved" : "snapshot", ((struct held *)site->private_address)->number,
               one(snapshot->private_is_full ? (unsigned long)other->number : (unsigned long)++sites), none);
    if (it.ok)
        fill(snapshot, it);
    else
        free(it.text);
    pthread_mutex_unlock(&lock);
    return outcome(it);
}

sct_outcome sct_raw_counts(sct_site *site, uint64_t *counts, size_t items) {
    struct reply it = told(site, "counts", one(items), none);
    must(counts != 0);
    if (it.ok) memcpy(counts, it.text, it.size);
    free(it.text);
    return outcome(it);
}

sct_outcome sct_raw_cut(sct_site *site, const uint8_t *vector, size_t length) {
    return made_of(site, "cut", GIVEN(of(vector, length)));
}

sct_outcome sct_raw_cut_above(sct_site *site, const uint64_t *counts, size_t items) {
    return made_of(site, "cut_above", GIVEN(of(counts, 8 * items)));
}

sct_outcome sct_raw_entries(sct_site *site, uint16_t origin, uint64_t above, uint64_t most) {
    const struct numbers numbers = {origin, above, most};
    return outcome(made(site, "entries", numbers, none));
}

sct_outcome sct_raw_digest(sct_site *site, uint16_t origin, uint64_t count) {
    const struct numbers numbers = {origin, count, 0};
    return outcome(made(site, "digest", numbers, none));
}

sct_outcome sct_raw_journal_text(sct_site *site, uint64_t above) {
    return outcome(made(site, "journal_text", one(above), none));
}

sct_outcome sct_raw_newest_text(sct_site *site, uint64_t count) {
    return outcome(made(site, "newest_text", one(count), none));
}

sct_outcome sct_raw_reading_text(sct_site *site, const uint8_t *text, size_t length) {
    return made_of(site, "reading_text", GIVEN(of(text, length)));
}

sct_outcome sct_raw_evaluate(sct_site *site) {
    return outcome(called(site, "evaluate", none));
}

sct_outcome sct_raw_report(sct_site *site, const uint8_t *bank, size_t bank_length, const uint8_t *day, size_t day_length,
                           const uint8_t *list, size_t list_length) {
    return made_of(site, "report", GIVEN(of(bank, bank_length), of(day, day_length), of(list, list_length)));
}

sct_outcome sct_raw_kept_text(sct_site *site, const uint8_t *day, size_t day_length) {
    return made_of(site, "kept_text", GIVEN(of(day, day_length)));
}

sct_outcome sct_raw_closed_text(sct_site *site, const uint8_t *day, size_t day_length) {
    return made_of(site, "closed_text", GIVEN(of(day, day_length)));
}

sct_outcome sct_raw_transfer_text(sct_site *site, const uint8_t *bank, size_t bank_length, const uint8_t *tx, size_t tx_length) {
    return made_of(site, "transfer_text", GIVEN(of(bank, bank_length), of(tx, tx_length)));
}

sct_outcome sct_raw_messages_text(sct_site *site, const uint8_t *bank, size_t bank_length, const uint8_t *tx, size_t tx_length) {
    return made_of(site, "messages_text", GIVEN(of(bank, bank_length), of(tx, tx_length)));
}

sct_outcome sct_raw_bank_totals(sct_site *site, const uint8_t *bank, size_t bank_length) {
    return made_of(site, "bank_totals", GIVEN(of(bank, bank_length)));
}

sct_outcome sct_raw_transfer_text_for(sct_site *site, const uint8_t *banks, size_t banks_length, const uint8_t *bank, size_t bank_length,
                                      const uint8_t *tx, size_t tx_length) {
    return made_of(site, "transfer_text_for", GIVEN(of(banks, banks_length), of(bank, bank_length), of(tx, tx_length)));
}

sct_outcome sct_raw_messages_text_for(sct_site *site, const uint8_t *banks, size_t banks_length, const uint8_t *bank, size_t bank_length,
                                      const uint8_t *tx, size_t tx_length) {
    return made_of(site, "messages_text_for", GIVEN(of(banks, banks_length), of(bank, bank_length), of(tx, tx_length)));
}

sct_outcome sct_raw_bank_totals_for(sct_site *site, const uint8_t *banks, size_t banks_length, const uint8_t *bank, size_t bank_length) {
    return made_of(site, "bank_totals_for", GIVEN(of(banks, banks_length), of(bank, bank_length)));
}

sct_outcome sct_raw_report_for(sct_site *site, const uint8_t *banks, size_t banks_length, const uint8_t *bank, size_t bank_length,
                               const uint8_t *day, size_t day_length, const uint8_t *list, size_t list_length) {
    return made_of(site, "report_for",
                   GIVEN(of(banks, banks_length), of(bank, bank_length), of(day, day_length), of(list, list_length)));
}

#define TEXT(name) \
    sct_outcome sct_raw_##name(sct_site *site) { \
        return made_of(site, #name, none); \
    }
TEXT(vector_text)
TEXT(digests_text)
TEXT(archive_text)
TEXT(status_text)
TEXT(totals_text)
TEXT(contradictions_text)
TEXT(changes)

sct_outcome sct_raw_answer_end(sct_site *site) {
    struct reply it = told(site, "answer_end", zero, none);
    if (it.ok) answers(site, it.text, 0);
    return outcome(it);
}

sct_outcome sct_raw_answer(sct_site *site, uint8_t *out, size_t room) {
    const struct held *held = site->private_address;
    sct_outcome found = {true, 0, 0, 0, 0};
    must(out != 0);
    if (!site->private_is_full) return outcome(refused(SCT_EMPTY));
    found.length = held->length;
    if (held->length <= room) memcpy(out, held->answer, held->length);
    return found;
}

sct_outcome sct_raw_answer_part(sct_site *site, size_t start, uint8_t *out, size_t room) {
    const struct held *held = site->private_address;
    sct_outcome found = {true, 0, 0, 0, 0};
    must(out != 0);
    if (!site->private_is_full) return outcome(refused(SCT_EMPTY));
    if (start < held->length) found.length = held->length - start < room ? held->length - start : room;
    if (found.length) memcpy(out, held->answer + start, found.length);
    return found;
}

sct_outcome sct_raw_why(sct_site *site, uint8_t *out, size_t room) {
    struct reply it;
    must(out != 0);
    if (site->private_is_full && is_out_of_memory()) return outcome(refused(SCT_MEMORY));
    it = told(site, "why", one(MOST), none);
    if (it.ok && it.size <= room) memcpy(out, it.text, it.size);
    free(it.text);
    return outcome(it);
}

/* Copies what the definitions have for a number. */
static size_t of_code(const char *call, uint8_t code, uint8_t *out, size_t room) {
    const struct numbers numbers = {code, MOST, 0};
    struct reply it;
    must(out != 0);
    pthread_mutex_lock(&lock);
    it = asked(call, 0, numbers, none);
    pthread_mutex_unlock(&lock);
    if (it.size <= room) memcpy(out, it.text, it.size);
    free(it.text);
    return it.size;
}

size_t sct_raw_code_name(uint8_t code, uint8_t *out, size_t room) {
    return of_code("code_name", code, out, room);
}

size_t sct_raw_code_text(uint8_t code, uint8_t *out, size_t room) {
    return of_code("code_text", code, out, room);
}
