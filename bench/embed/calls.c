/* calls.c: what calls of a site cost the processor, and what a message costs in memory. bench/embed/calls.py is the same in Python.
 *
 *     calls FILE MORE
 *
 * FILE has messages, one a line. All but the last 2 * MORE are taken one by one, and then held. MORE messages are taken after that, each
 * followed by its line of the journal, and by the lines of its transfer or by what changed, in turn. MORE others come from a second site,
 * in a delta of one message each. It prints a line for each measure: a name, a number and its unit. Times are those of the thread's
 * processor, in the median of a call.
 */
#define _GNU_SOURCE
#include <malloc.h>
#include <niluppang.h>
#include <stdio.h>
#include <stdlib.h>
#include <string.h>
#include <time.h>

struct text {
    uint8_t *bytes;
    size_t length;
};

static void must(int holds, const char *what) {
    if (holds) return;
    fprintf(stderr, "calls: %s\n", what);
    exit(2);
}

static double now(void) {
    struct timespec time;
    clock_gettime(CLOCK_THREAD_CPUTIME_ID, &time);
    return (double)time.tv_sec + (double)time.tv_nsec / 1e9;
}

/* The memory that is allocated, in bytes. */
static double memory(void) {
    struct mallinfo2 info = mallinfo2();
    return (double)(info.uordblks + info.hblkhd);
}

static void print(const char *name, double number, const char *unit) {
    printf("%s|%.3f|%s\n", name, number, unit);
    fflush(stdout);
}

static int by_size(const void *one, const void *other) {
    double difference = *(const double *)one - *(const double *)other;
    return (difference > 0) - (difference < 0);
}

/* The middle one of some times, in microseconds. */
static double median(double *times, size_t many) {
    qsort(times, many, sizeof *times, by_size);
    return times[many / 2] * 1e6;
}

static struct text room_for(size_t length) {
    struct text text = {malloc(length + 1), length};
    must(text.bytes != NULL, "out of memory");
    return text;
}

static struct text file_text(const char *name) {
    FILE *file = fopen(name, "rb");
    must(file != NULL && fseek(file, 0, SEEK_END) == 0, "the file cannot be read");
    struct text text = room_for((size_t)ftell(file));
    rewind(file);
    must(fread(text.bytes, 1, text.length, file) == text.length, "the file cannot be read");
    fclose(file);
    return text;
}

/* The lines of a text. */
static struct text *lines_of(struct text text, size_t *many) {
    size_t room = 1024;
    struct text *lines = malloc(room * sizeof *lines);
    *many = 0;
    for (size_t begin = 0; begin < text.length;) {
        const uint8_t *end = memchr(text.bytes + begin, '\n', text.length - begin);
        size_t length = end != NULL ? (size_t)(end - (text.bytes + begin)) : text.length - begin;
        if (*many == room) lines = realloc(lines, (room *= 2) * sizeof *lines);
        must(lines != NULL, "out of memory");
        lines[(*many)++] = (struct text){text.bytes + begin, length};
        begin += length + 1;
    }
    return lines;
}

/* The text of a key in a line of JSON without spaces. */
static struct text element(struct text line, const char *key) {
    char *begin = memmem(line.bytes, line.length, key, strlen(key));
    if (begin == NULL) return (struct text){line.bytes, 0};
    begin += strlen(key);
    return (struct text){(uint8_t *)begin, (size_t)((char *)memchr(begin, '"', 64) - begin)};
}

static struct text answer_of(sct_site *site, sct_outcome made) {
    must(made.ok, "a call is refused");
    struct text text = room_for(made.length);
    must(sct_site_answer(site, text.bytes, text.length).ok, "an answer is not copied");
    return text;
}

/* Takes a message, and returns its number. */
static uint64_t take(sct_site *site, struct text line) {
    sct_taken taken = sct_site_take(site, line.bytes, line.length);
    must(taken.ok, "a message is refused");
    return taken.number;
}

/* Takes messages one by one, and prints what that cost. */
static void takes(sct_site *site, const struct text *lines, size_t many) {
    double before = memory(), began = now();
    for (size_t place = 0; place < many; place++) take(site, lines[place]);
    double spent = now() - began;
    print("take", spent / (double)many * 1e6, "us");
    print("takes a second", (double)many / spent, "");
    print("memory a message, taken", (memory() - before) / (double)many, "bytes");
}

/* A question on all that is held, asked twice: the first time evaluates what is new. */
static void whole(sct_site *site, size_t many, double before) {
    for (int time = 1; time <= 2; time++) {
        double began = now();
        struct text text = answer_of(site, sct_site_status_text(site));
        print(time == 1 ? "first status text" : "status text again", now() - began, "s");
        free(text.bytes);
    }
    print("memory a message, with its answers", (memory() - before) / (double)many, "bytes");
}

/* The lines of the transfer that a message is on. */
static struct text transfer_of(sct_site *site, struct text line) {
    struct text bank = element(line, "\"DbtrAgt\":\""), tx = element(line, "\"OrgnlTxId\":\"");
    if (tx.length == 0) tx = element(line, "\"TxId\":\"");
    return answer_of(site, sct_site_transfer_text(site, bank.bytes, bank.length, tx.bytes, tx.length));
}

/* Takes, each followed by its line of the journal, and by the lines of its transfer, or by what changed, in turn. */
static void followed(sct_site *site, const struct text *lines, size_t many) {
    double *took = malloc(many * sizeof *took), *kept = malloc(many * sizeof *kept);
    double *asked = malloc(many * sizeof *asked), *changed = malloc(many * sizeof *changed);
    must(took != NULL && kept != NULL && asked != NULL && changed != NULL && sct_site_changes(site).ok, "the watch does not begin");
    for (size_t place = 0; place < many; place++) {
        bool is_even = place % 2 == 0;
        double began = now();
        uint64_t number = take(site, lines[place]);
        took[place] = now() - began;
        began = now();
        struct text line = answer_of(site, sct_site_journal_text(site, number - 1));
        kept[place] = now() - began;
        must(line.length > 0, "a message has no line of the journal");
        free(line.bytes);
        began = now();
        struct text text = is_even ? transfer_of(site, lines[place]) : answer_of(site, sct_site_changes(site));
        (is_even ? asked : changed)[place / 2] = now() - began;
        must(text.length > 0, "an answer is empty");
        free(text.bytes);
    }
    print("a take, all held", median(took, many), "us");
    print("then its line of the journal", median(kept, many), "us");
    print("then the lines of its transfer", median(asked, (many + 1) / 2), "us");
    print("then what changed", median(changed, many / 2), "us");
    free(took);
    free(kept);
    free(asked);
    free(changed);
}

/* Accepts deltas of one message each, which a second site cuts. */
static void accepts(sct_site *site, const struct text *lines, size_t many) {
    sct_site other = SCT_SITE_EMPTY;
    double *times = malloc(many * sizeof *times);
    must(times != NULL && sct_site_open(&other, 2, 2).ok, "the second site is not opened");
    for (size_t place = 0; place < many; place++) {
        uint64_t counts[2] = {0, place};
        take(&other, lines[place]);
        struct text delta = answer_of(&other, sct_site_cut_above(&other, counts, 2));
        double began = now();
        must(sct_site_accept(site, delta.bytes, delta.length).fresh == 1, "a delta is refused");
        times[place] = now() - began;
        free(delta.bytes);
    }
    double middle = median(times, many);
    print("an accept of one message, all held", middle, "us");
    print("such accepts a second", 1e6 / middle, "");
    free(times);
    sct_site_close(&other);
}

/* The delta of everything, cut, and accepted by an empty site. */
static void handed_over(sct_site *site, size_t many) {
    sct_site other = SCT_SITE_EMPTY;
    must(sct_site_open(&other, 2, 2).ok, "the second site is not opened");
    double began = now();
    struct text delta = answer_of(site, sct_site_cut(site, (const uint8_t *)"1:0", 3));
    print("cut of everything", now() - began, "s");
    began = now();
    sct_accepted accepted = sct_site_accept(&other, delta.bytes, delta.length);
    double spent = now() - began;
    must(accepted.ok && accepted.fresh == many, "a delta is refused");
    print("accepts a second, in one delta", (double)many / spent, "");
    free(delta.bytes);
    sct_site_close(&other);
}

int main(int words, char **word) {
    must(words == 3 && atoi(word[2]) > 1, "usage: calls FILE MORE");
    size_t many, more = (size_t)atoi(word[2]);
    struct text text = file_text(word[1]);
    struct text *lines = lines_of(text, &many);
    must(many > 2 * more, "the file has too few lines");
    many -= 2 * more;
    sct_site site = SCT_SITE_EMPTY;
    must(sct_site_open(&site, 1, 2).ok, "the site is not opened");
    double before = memory();
    takes(&site, lines, many);
    handed_over(&site, many);
    whole(&site, many, before);
    followed(&site, lines + many, more);
    accepts(&site, lines + many + more, more);
    sct_site_close(&site);
    free(lines);
    free(text.bytes);
    return 0;
}
