/* only_reads.c: a handle in a page that may not be written, while calls that only read use it.
 *
 * Each call writes what it came to. The end of the answer changes the handle: with the word `end` the process is killed there. */
#define _DEFAULT_SOURCE
#include <niluppang.h>
#include <signal.h>
#include <stdio.h>
#include <string.h>
#include <sys/mman.h>

static const char TAKEN[] = "nothing\n{}\n";
static uint8_t out[64];

static void tell(const char *name, sct_outcome made, size_t written) {
    printf("%s %d %u %zu %.*s\n", name, made.ok, made.code, made.length, (int)written, (const char *)out);
}

int main(int many, char **words) {
    size_t page = 4096;
    bool ends = many > 1 && strcmp(words[1], "end") == 0;
    uint64_t counts[3] = {9, 9, 9};
    sct_site *site = mmap(NULL, page, PROT_READ | PROT_WRITE, MAP_PRIVATE | MAP_ANONYMOUS, -1, 0);
    if (site == MAP_FAILED || !sct_site_open(site, 2, 3).ok) return 2;
    if (!sct_site_take_lines(site, (const uint8_t *)TAKEN, strlen(TAKEN)).ok) return 2;
    if (sct_site_cut(site, (const uint8_t *)"1", 1).ok || mprotect(site, page, PROT_READ)) return 2;
    sct_outcome made = sct_site_answer(site, out, sizeof out);
    tell("answer", made, made.length);
    made = sct_site_answer_part(site, 5, out, 4);
    tell("part", made, made.length);
    made = sct_site_why(site, out, sizeof out);
    tell("why", made, made.length);
    made = sct_site_counts(site, counts, 3);
    printf("counts %d %u %lu %lu %lu\n", made.ok, made.code, (unsigned long)counts[0], (unsigned long)counts[1], (unsigned long)counts[2]);
    fflush(stdout);
    if (ends && sct_site_answer_end(site).ok) return 3;
    if (mprotect(site, page, PROT_READ | PROT_WRITE)) return 2;
    sct_site_close(site);
    return 0;
}
