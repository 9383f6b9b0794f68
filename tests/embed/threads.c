/* threads.c: a thread for each site. The threads take messages and make answers side by side, round after round.
 *
 *     threads ROUNDS FILE..
 *
 * In each round, site N takes the messages of the Nth file on a thread of its own, and evaluates them. The main thread has them exchange
 * what they hold. Then each site refuses a message, says why, and makes its status text, on another thread. All texts of all rounds must
 * be equal, and one is printed.
 */
#include <niluppang.h>
#include <pthread.h>
#include <stdio.h>
#include <stdlib.h>
#include <string.h>

#define MOST 16
#define STACK (256 * 1024)

struct text {
    uint8_t *bytes;
    size_t length;
};

struct worker {
    pthread_t thread;
    sct_site site;
    uint16_t number, group;
    struct text lines, status;
};

static void must(int holds, const char *what) {
    if (holds) return;
    fprintf(stderr, "threads: %s\n", what);
    exit(2);
}

static struct text room_for(size_t length) {
    struct text text = {malloc(length + 1), length};
    must(text.bytes != NULL, "out of memory");
    return text;
}

static struct text file_text(const char *name) {
    FILE *file = fopen(name, "rb");
    must(file != NULL && fseek(file, 0, SEEK_END) == 0, "a file cannot be read");
    struct text text = room_for((size_t)ftell(file));
    rewind(file);
    must(fread(text.bytes, 1, text.length, file) == text.length, "a file cannot be read");
    fclose(file);
    return text;
}

static struct text answer_of(sct_site *site, sct_outcome made) {
    must(made.ok, "a call is refused");
    struct text text = room_for(made.length);
    sct_outcome copied = sct_site_answer(site, text.bytes, text.length);
    must(copied.ok && copied.length == text.length, "an answer is not copied");
    return text;
}

static void *take(void *worker_of_thread) {
    struct worker *worker = worker_of_thread;
    must(sct_site_open(&worker->site, worker->number, worker->group).ok, "a site is not opened");
    must(sct_site_take_lines(&worker->site, worker->lines.bytes, worker->lines.length).ok, "lines are not taken");
    must(sct_site_evaluate(&worker->site).ok, "a site is not evaluated");
    return NULL;
}

/* A message that is refused, and why. */
static void refuse(sct_site *site) {
    uint8_t why[8], name[8];
    must(sct_site_take(site, (const uint8_t *)"{}", 2).code == SCT_UNKNOWN_KIND, "a message is not refused");
    sct_outcome told = sct_site_why(site, why, sizeof why);
    must(told.ok && told.length == 2 && memcmp(why, "33", 2) == 0, "a message is refused for another reason");
    must(sct_code_name(SCT_GAP, name, sizeof name) == 3 && memcmp(name, "Gap", 3) == 0, "a number has another name");
}

static void *ask(void *worker_of_thread) {
    struct worker *worker = worker_of_thread;
    refuse(&worker->site);
    worker->status = answer_of(&worker->site, sct_site_status_text(&worker->site));
    sct_site_close(&worker->site);
    return NULL;
}

/* Runs each worker on a thread of its own, and waits for all. */
static void on_threads(struct worker *workers, int count, void *(*work)(void *)) {
    pthread_attr_t attributes;
    must(pthread_attr_init(&attributes) == 0 && pthread_attr_setstacksize(&attributes, STACK) == 0, "the stack is refused");
    for (int place = 0; place < count; place++)
        must(pthread_create(&workers[place].thread, &attributes, work, &workers[place]) == 0, "there is no thread");
    for (int place = 0; place < count; place++) must(pthread_join(workers[place].thread, NULL) == 0, "a thread is lost");
    pthread_attr_destroy(&attributes);
}

static void bring(sct_site *from, sct_site *to) {
    struct text vector = answer_of(to, sct_site_vector_text(to));
    struct text delta = answer_of(from, sct_site_cut(from, vector.bytes, vector.length));
    must(sct_site_accept(to, delta.bytes, delta.length).ok, "a delta is refused");
    free(vector.bytes);
    free(delta.bytes);
}

/* A round: what all sites answer, or the end if they differ. */
static struct text round_of(struct worker *workers, int count) {
    on_threads(workers, count, take);
    for (int place = 1; place < count; place++) bring(&workers[place].site, &workers[0].site);
    for (int place = 1; place < count; place++) bring(&workers[0].site, &workers[place].site);
    on_threads(workers, count, ask);
    struct text first = workers[0].status;
    for (int place = 1; place < count; place++) {
        struct text other = workers[place].status;
        must(other.length == first.length && memcmp(other.bytes, first.bytes, first.length) == 0, "two sites differ");
        free(other.bytes);
    }
    return first;
}

int main(int words, char **word) {
    static struct worker workers[MOST];
    int count = words - 2, rounds = words > 1 ? atoi(word[1]) : 0;
    must(count > 0 && count <= MOST && rounds > 0, "usage: threads ROUNDS FILE..");
    for (int place = 0; place < count; place++) {
        workers[place].number = (uint16_t)(place + 1);
        workers[place].group = (uint16_t)count;
        workers[place].lines = file_text(word[place + 2]);
    }
    struct text first = round_of(workers, count);
    for (int round = 1; round < rounds; round++) {
        struct text other = round_of(workers, count);
        must(other.length == first.length && memcmp(other.bytes, first.bytes, first.length) == 0, "two rounds differ");
        free(other.bytes);
    }
    fwrite(first.bytes, 1, first.length, stdout);
    free(first.bytes);
    for (int place = 0; place < count; place++) free(workers[place].lines.bytes);
    return fflush(stdout) == 0 ? 0 : 2;
}
