/* hub.c: the sites of a hub in one process. Site 1 takes the messages of the first file, site 2 those of the second, and so on. The
 * sites exchange what they hold, and the status text that all of them have then is printed. Refused lines go to standard error.
 *
 *     cc -std=c99 hub.c $(pkg-config --cflags --libs niluppang) -o hub
 *     ./hub ../hub-morning.site1 ../hub-morning.site2 ../hub-morning.site3
 *
 * A file is the journal of its site: were the process to end here, the same files would make the same sites again. A service that
 * takes messages one by one writes each to the journal before it acknowledges it. One that takes many lines at once appends what
 * sct_site_journal_text gives it.
 */
#include <limits.h>
#include <niluppang.h>
#include <stdio.h>
#include <stdlib.h>
#include <string.h>

#define MOST_SITES 16
#define PART 4096

/* Bytes that whoever has them frees. They are never at a null pointer. */
struct text {
    uint8_t *bytes;
    size_t length;
};

/* Ends the program if a call was refused, and prints why: what the number means, and all that the site says of it. */
static void must(sct_site *site, int number, const char *call, bool ok, uint8_t code) {
    uint8_t meaning[256], why[PART];
    if (ok) return;
    size_t meant = sct_code_text(code, meaning, sizeof meaning);
    sct_outcome told = sct_site_why(site, why, sizeof why); /* refused at a site that was not opened: then its length is 0 */
    fprintf(stderr, "hub: %s at site %d was refused by %u, %.*s\n", call, number, code, (int)meant, (const char *)meaning);
    if (told.length > 0 && told.length <= sizeof why) fprintf(stderr, "hub: %.*s\n", (int)told.length, (const char *)why);
    exit(2);
}

/* Room for a number of bytes, and for one at least. */
static struct text room_for(size_t length) {
    struct text text = {malloc(length > 0 ? length : 1), length};
    if (text.bytes == NULL) {
        fputs("hub: out of memory\n", stderr);
        exit(3);
    }
    return text;
}

/* The bytes of a file. */
static struct text file_text(const char *name) {
    FILE *file = fopen(name, "rb");
    long length = -1;
    if (file != NULL && fseek(file, 0, SEEK_END) == 0) length = ftell(file);
    if (length < 0 || length == LONG_MAX || fseek(file, 0, SEEK_SET) != 0) { /* a folder is LONG_MAX bytes long */
        fprintf(stderr, "hub: %s cannot be read\n", name);
        exit(2);
    }
    struct text text = room_for((size_t)length);
    text.length = fread(text.bytes, 1, text.length, file);
    fclose(file);
    return text;
}

/* The answer of a site, which a call has just made. */
static struct text answer_of(sct_site *site, int number, const char *call, sct_outcome made) {
    must(site, number, call, made.ok, made.code);
    struct text text = room_for(made.length);
    sct_outcome copied = sct_site_answer(site, text.bytes, text.length);
    must(site, number, "answer", copied.ok && copied.length == text.length, copied.code);
    return text;
}

/* Prints the answer of a site, part by part: it needs no memory of its length. */
static void print_answer(sct_site *site, int number, FILE *file) {
    uint8_t part[PART];
    size_t from = 0;
    for (;;) {
        sct_outcome copied = sct_site_answer_part(site, from, part, sizeof part);
        must(site, number, "answer_part", copied.ok, copied.code);
        if (copied.length == 0) return;
        fwrite(part, 1, copied.length, file);
        from += copied.length;
    }
}

static struct text status_of(sct_site *site, int number) {
    return answer_of(site, number, "status_text", sct_site_status_text(site));
}

/* A site takes the messages of a file. Its refused lines are printed. */
static void take_file(sct_site *site, int number, const char *name) {
    struct text lines = file_text(name);
    sct_lines taken = sct_site_take_lines(site, lines.bytes, lines.length);
    must(site, number, "take_lines", taken.ok, taken.code);
    if (taken.refused > 0) fprintf(stderr, "site %d:\n", number);
    print_answer(site, number, stderr);
    free(lines.bytes);
}

/* One site is brought what it lacks and another one holds. On two machines the vector goes one way, and the delta the other. */
static void bring(sct_site *sites, int from, int to) {
    sct_site *giver = &sites[from - 1], *taker = &sites[to - 1];
    struct text vector = answer_of(taker, to, "vector_text", sct_site_vector_text(taker));
    struct text delta = answer_of(giver, from, "cut", sct_site_cut(giver, vector.bytes, vector.length));
    sct_accepted accepted = sct_site_accept(taker, delta.bytes, delta.length);
    must(taker, to, "accept", accepted.ok, accepted.code);
    free(delta.bytes);
    free(vector.bytes);
}

/* Ends the program unless a site has the status text that site 1 has. */
static void must_have(sct_site *site, int number, struct text first) {
    struct text other = status_of(site, number);
    if (other.length != first.length || memcmp(other.bytes, first.bytes, first.length) != 0) {
        fprintf(stderr, "hub: the status text of site %d is another one than that of site 1\n", number);
        exit(2);
    }
    free(other.bytes);
}

int main(int count, char **words) {
    static sct_site sites[MOST_SITES]; /* static, and so all of them are SCT_SITE_EMPTY */
    int group = count - 1;
    if (group < 1 || group > MOST_SITES) {
        fputs("usage: hub FILE.. (1 to 16 files)\n", stderr);
        return 2;
    }
    for (int number = 1; number <= group; number++) {
        sct_outcome opened = sct_site_open(&sites[number - 1], (uint16_t)number, (uint16_t)group);
        must(&sites[number - 1], number, "open", opened.ok, opened.code);
        take_file(&sites[number - 1], number, words[number]);
    }
    /* each site gives to site 1, which then gives to each: so all hold everything */
    for (int number = 2; number <= group; number++) bring(sites, number, 1);
    for (int number = 2; number <= group; number++) bring(sites, 1, number);
    struct text first = status_of(&sites[0], 1);
    for (int number = 2; number <= group; number++) must_have(&sites[number - 1], number, first);
    size_t printed = fwrite(first.bytes, 1, first.length, stdout);
    free(first.bytes);
    for (int number = 1; number <= group; number++) sct_site_close(&sites[number - 1]);
    return printed == first.length && fflush(stdout) == 0 ? 0 : 2;
}
