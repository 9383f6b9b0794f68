/* snapshots.c: one thread has a site take messages, while others ask snapshots of it.
 *
 *     snapshots ASKERS MESSAGES
 *
 * The site takes so many instructions, one after another. Each asker makes a snapshot of it by a lock, asks it without the lock, closes it,
 * and makes another. Each answer must be the one on as many of the first messages as the snapshot counts, and the counts of an asker never
 * fall. The site waits for askers after each quarter of its messages, so that many snapshots are of some of them. In the end snapshots are
 * handed to new threads, and asked there while the site is closed. It prints how many snapshots were of some messages, and not of all.
 */
#include <niluppang.h>
#include <pthread.h>
#include <stdio.h>
#include <stdlib.h>
#include <string.h>

#define MOST 16
#define STACK (256 * 1024)
#define LINE_LENGTH 30
#define QUARTERS 4

static pthread_mutex_t lock = PTHREAD_MUTEX_INITIALIZER;
static pthread_cond_t was_asked = PTHREAD_COND_INITIALIZER;
static sct_site site = SCT_SITE_EMPTY; /* by the lock, and so are the three below */
static size_t asked, of_some;
static bool is_over;
static size_t most;
static char *statuses; /* the status text of all messages, whose beginnings are those of the first ones */

static void must(bool holds, const char *what) {
    if (holds) return;
    fprintf(stderr, "snapshots: %s\n", what);
    exit(2);
}

/* The answer that a call made, which ends with a zero byte here. */
static char *answer_of(sct_site *its, sct_outcome made) {
    must(made.ok, "a question is refused");
    char *text = malloc(made.length + 1);
    must(text != NULL, "out of memory");
    sct_outcome copied = sct_site_answer(its, (uint8_t *)text, made.length);
    must(copied.ok && copied.length == made.length, "an answer is not copied");
    text[made.length] = '\0';
    return text;
}

static size_t count_of(sct_site *its) {
    uint64_t count;
    must(sct_site_counts(its, &count, 1).ok, "counts are refused");
    return (size_t)count;
}

/* A snapshot takes nothing, and says why. */
static void must_refuse(sct_site *snapshot) {
    uint8_t why[8];
    sct_taken taken = sct_site_take(snapshot, (const uint8_t *)"{}", 2);
    sct_outcome told = sct_site_why(snapshot, why, sizeof why);
    must(!taken.ok && taken.code == SCT_SNAPSHOT, "a snapshot takes a message");
    must(told.ok && told.length == 2 && memcmp(why, "85", 2) == 0, "a snapshot refuses a message for another reason");
}

/* How many messages a snapshot has, each of whose answers must be on the first so many. */
static size_t asked_of(sct_site *snapshot) {
    char totals[99] = "", last[64] = "";
    size_t count = count_of(snapshot);
    char *found = answer_of(snapshot, sct_site_status_text(snapshot));
    must(strlen(found) == count * LINE_LENGTH && memcmp(found, statuses, strlen(found)) == 0, "a snapshot has another status text");
    free(found);
    if (count > 0) snprintf(totals, sizeof totals, "BANKDEFFXXX|0|0.00|0.00|0|%zu|0|0|0|0.00|0.00\n", count);
    found = answer_of(snapshot, sct_site_totals_text(snapshot));
    must(strcmp(found, totals) == 0, "a snapshot has other totals");
    free(found);
    if (count > 0) snprintf(last, sizeof last, "\"TxId\":\"T%06zu\"}\n", count);
    found = answer_of(snapshot, sct_site_newest_text(snapshot, 1));
    size_t end = strlen(last), length = strlen(found);
    must(length >= end && strcmp(found + length - end, last) == 0 && (count > 0) == (length > 0), "a snapshot has another newest message");
    free(found);
    must_refuse(snapshot);
    must(count_of(snapshot) == count, "a snapshot does not stay as it is");
    return count;
}

/* Makes a snapshot of the site. It is the last one if the site has taken all. */
static bool made(sct_site *snapshot) {
    must(pthread_mutex_lock(&lock) == 0, "there is no lock");
    bool is_last = is_over;
    must(sct_site_snapshot(&site, snapshot).ok, "a snapshot is refused");
    must(pthread_mutex_unlock(&lock) == 0, "there is no lock");
    return is_last;
}

static void *ask(void *nothing) {
    size_t least = 0;
    for (bool is_last = false; !is_last;) {
        sct_site first = SCT_SITE_EMPTY, second = SCT_SITE_EMPTY;
        is_last = made(&first);
        must(sct_site_snapshot(&first, &second).ok, "a snapshot of a snapshot is refused");
        size_t count = asked_of(&first);
        sct_site_close(&first);
        must(asked_of(&second) == count && count >= least, "a later snapshot has fewer messages");
        sct_site_close(&second);
        must(!is_last || count == most, "the last snapshot has not all messages");
        least = count;
        must(pthread_mutex_lock(&lock) == 0, "there is no lock");
        asked++;
        of_some += count > 0 && count < most;
        must(pthread_cond_signal(&was_asked) == 0 && pthread_mutex_unlock(&lock) == 0, "there is no lock");
    }
    return nothing;
}

/* Asks a snapshot that was handed over, and closes it. */
static void *ask_handed(void *snapshot) {
    must(asked_of(snapshot) == most, "a snapshot that was handed over has not all messages");
    sct_site_close(snapshot);
    return NULL;
}

/* The line of a transfer in the status text. */
static void write_status(size_t number, char *out) {
    char line[64];
    int length = snprintf(line, sizeof line, "T|BANKDEFFXXX|T%06zu|PENDING\n", number);
    must(length == LINE_LENGTH, "a line has another length");
    memcpy(out, line, LINE_LENGTH);
}

static void take(size_t number) {
    char json[999];
    int length = snprintf(json, sizeof json,
        "{\"MsgNmId\":\"pacs.008\",\"MsgId\":\"M%06zu\",\"CreDtTm\":\"2024-05-02T10:00:00Z\",\"InstgAgt\":\"BANKDEFF\","
        "\"IntrBkSttlmDt\":\"2024-05-02\",\"SvcLvl\":\"SEPA\",\"LclInstrm\":\"INST\",\"EndToEndId\":\"E1\",\"TxId\":\"T%06zu\","
        "\"IntrBkSttlmAmt\":\"1.00\",\"Ccy\":\"EUR\",\"ChrgBr\":\"SLEV\",\"Dbtr\":\"Anna Weber\","
        "\"DbtrAcct\":\"DE89370400440532013000\",\"DbtrAgt\":\"BANKDEFF\",\"CdtrAgt\":\"BANQFRPP\",\"Cdtr\":\"Bo Maes\","
        "\"CdtrAcct\":\"BE68539007547034\"}", number, number);
    must(pthread_mutex_lock(&lock) == 0, "there is no lock");
    sct_taken taken = sct_site_take(&site, (const uint8_t *)json, (size_t)length);
    must(taken.ok && taken.number == number, "a message is not taken");
    is_over = number == most;
    must(pthread_mutex_unlock(&lock) == 0, "there is no lock");
}

/* Waits until so many more snapshots were asked. */
static void wait_for(size_t more) {
    must(pthread_mutex_lock(&lock) == 0, "there is no lock");
    for (size_t until = asked + more; asked < until;) must(pthread_cond_wait(&was_asked, &lock) == 0, "there is no lock");
    must(pthread_mutex_unlock(&lock) == 0, "there is no lock");
}

static void start(pthread_t *thread, void *(*work)(void *), void *with) {
    pthread_attr_t attributes;
    must(pthread_attr_init(&attributes) == 0 && pthread_attr_setstacksize(&attributes, STACK) == 0, "the stack is refused");
    must(pthread_create(thread, &attributes, work, with) == 0, "there is no thread");
    pthread_attr_destroy(&attributes);
}

int main(int words, char **word) {
    static sct_site handed[MOST];
    pthread_t threads[MOST];
    size_t askers = words == 3 ? strtoul(word[1], NULL, 10) : 0;
    most = words == 3 ? strtoul(word[2], NULL, 10) : 0;
    must(askers > 0 && askers <= MOST && most >= QUARTERS && most < 1000000, "usage: snapshots ASKERS MESSAGES");
    statuses = malloc(most * LINE_LENGTH);
    must(statuses != NULL, "out of memory");
    for (size_t number = 1; number <= most; number++) write_status(number, statuses + (number - 1) * LINE_LENGTH);
    must(sct_site_open(&site, 1, 1).ok, "a site is not opened");
    for (size_t place = 0; place < askers; place++) start(&threads[place], ask, NULL);
    for (size_t number = 1; number <= most; number++) {
        take(number);
        if (number % (most / QUARTERS) == 0 && number < most) wait_for(askers);
    }
    for (size_t place = 0; place < askers; place++) must(pthread_join(threads[place], NULL) == 0, "a thread is lost");
    for (size_t place = 0; place < askers; place++) {
        must(sct_site_snapshot(&site, &handed[place]).ok, "a snapshot is refused");
        start(&threads[place], ask_handed, &handed[place]);
    }
    sct_site_close(&site);
    for (size_t place = 0; place < askers; place++) must(pthread_join(threads[place], NULL) == 0, "a thread is lost");
    free(statuses);
    printf("%zu\n", of_some);
    return fflush(stdout) == 0 ? 0 : 2;
}
