/* header_alone.c: what docs/users/exchange.md has of sites that give each other files, by the calls of niluppang.h alone, in C99.
 *
 *     header_alone site SITE SITES JOURNAL [DELTA]..
 *     header_alone vector SITE SITES JOURNAL [DELTA]..
 *     header_alone cut SITE SITES HAVE JOURNAL [DELTA]..
 *
 * are the commands of the program, without options and without its limit of 1 GiB.
 *
 *     header_alone hub SEED STEPS FOLDER OTHER FILE..
 *
 * is a hub: site N takes the lines of the Nth file, and keeps its journal in FOLDER. At random, sites take lines, cut what others lack,
 * lose deltas, accept them in any order and again, are given damaged ones, are asked, stop, and begin again from the disk. In the end they
 * exchange all, and hold the same. Then a site begins with a journal that lost a line, and one with the message OTHER in place of its own.
 * The first refuses what it cut before, and all refuse what the second cuts.
 *
 * Each call of a hub is written to standard output: a line of its name, its site and its arguments, a number as it is, and a text as `=` and
 * its length; these texts; a line of the fields of the result, of the length of the text that was made or written, and of that of why; both.
 */
#include <inttypes.h>
#include <niluppang.h>
#include <stdio.h>
#include <stdlib.h>
#include <string.h>

#define MOST_SITES 8
#define MOST_FILES 64
#define MOST_WAITING 32

struct text {
    uint8_t *at;
    size_t length;
};

static const struct text none = {NULL, 0};

#define TEXT(literal) {(uint8_t *)literal, sizeof literal - 1} /* the cast of a literal, to which nobody writes */
#define DRAWN(items) items[below(sizeof items / sizeof *items)]

static void must(bool holds, const char *what) {
    if (holds) return;
    fflush(stdout);
    fprintf(stderr, "header_alone: %s\n", what);
    exit(70);
}

/* Room for some bytes, and none for none. */
static struct text room_for(size_t length) {
    struct text text = {length > 0 ? malloc(length) : NULL, length};
    must(length == 0 || text.at != NULL, "out of memory");
    return text;
}

static struct text copy_of(const void *at, size_t length) {
    struct text text = room_for(length);
    if (length > 0) memcpy(text.at, at, length);
    return text;
}

static bool is_same(struct text one, struct text other) {
    return one.length == other.length && (one.length == 0 || memcmp(one.at, other.at, one.length) == 0);
}

static bool begins_with(struct text text, const char *beginning) {
    return text.length >= strlen(beginning) && memcmp(text.at, beginning, strlen(beginning)) == 0;
}

static void print(struct text text, FILE *file) {
    if (text.length > 0) fwrite(text.at, 1, text.length, file);
}

/* The bytes of a file. False if it cannot be read. */
static bool read_file(const char *name, struct text *text) {
    uint8_t part[4096];
    size_t had;
    FILE *file = fopen(name, "rb");
    *text = none;
    if (file == NULL) return false;
    while ((had = fread(part, 1, sizeof part, file)) > 0) {
        text->at = realloc(text->at, text->length + had);
        must(text->at != NULL, "out of memory");
        memcpy(text->at + text->length, part, had);
        text->length += had;
    }
    bool is_read = !ferror(file);
    fclose(file);
    return is_read;
}

/* The answer of a site. */
static struct text answer_of(sct_site *site) {
    struct text text = room_for(sct_site_answer(site, NULL, 0).length);
    sct_outcome copied = sct_site_answer(site, text.at, text.length);
    must(copied.ok && copied.length == text.length, "an answer is not copied");
    return text;
}

/* Why the last call of a site was refused. */
static struct text why_of(sct_site *site) {
    struct text text = room_for(sct_site_why(site, NULL, 0).length);
    must(text.length == 0 || sct_site_why(site, text.at, text.length).length == text.length, "a reason is not copied");
    return text;
}

/* ---- the commands */

struct file {
    struct text text, why;
    bool is_accepted;
};

static int fault(sct_site *site, int number) {
    sct_site_close(site);
    fprintf(stderr, "fault %d\n", number);
    return number == SCT_MEMORY ? 3 : 2;
}

/* The number that a word is, or 0. */
static uint16_t number_in(const char *word) {
    size_t length = strlen(word);
    if (length == 0 || length > 4 || strspn(word, "0123456789") != length || word[0] == '0') return 0;
    return (uint16_t)atoi(word);
}

/* Whether the words name a site of a group, and a vector if there is one. */
static bool are_right(sct_site *site, uint16_t number, uint16_t group, const char *have) {
    bool right = sct_site_open(site, number, group).ok;
    if (right && have != NULL) right = sct_site_cut(site, (const uint8_t *)have, strlen(have)).ok;
    sct_site_close(site);
    return right;
}

/* Offers the deltas that are left to the site, once in their order. How many it accepts. */
static int round_of(sct_site *site, struct file *files, int count) {
    int accepted = 0;
    for (int place = 0; place < count; place++) {
        struct file *file = &files[place];
        if (file->is_accepted) continue;
        free(file->why.at);
        file->is_accepted = sct_site_accept(site, file->text.at, file->text.length).ok;
        file->why = why_of(site);
        accepted += file->is_accepted;
    }
    return accepted;
}

/* Writes what was refused, and then the text. */
static int answered(sct_site *site, const char *command, const char *have, struct text refused, struct file *files, int count) {
    bool is_refused = refused.length > 0;
    print(refused, stderr);
    for (int place = 0; place < count; place++) {
        if (files[place].is_accepted) continue;
        is_refused = true;
        fprintf(stderr, "file %d: ", place + 2);
        print(files[place].why, stderr);
        fputc('\n', stderr);
    }
    sct_outcome made;
    if (have != NULL)
        made = sct_site_cut(site, (const uint8_t *)have, strlen(have));
    else if (strcmp(command, "vector") == 0)
        made = sct_site_vector_text(site);
    else
        made = sct_site_archive_text(site);
    if (!made.ok) return made.code;
    struct text text = answer_of(site);
    print(text, stdout);
    if (strcmp(command, "vector") == 0) putchar('\n');
    free(text.at);
    return is_refused;
}

static int command_of(int words, char **word) {
    sct_site site = SCT_SITE_EMPTY;
    struct file files[MOST_FILES];
    bool is_cut = strcmp(word[1], "cut") == 0;
    int first = is_cut ? 5 : 4, count = words - first;
    if (count < 1 || count > MOST_FILES) return fault(&site, 64);
    const char *have = is_cut ? word[4] : NULL;
    uint16_t number = number_in(word[2]), group = number_in(word[3]);
    if (!are_right(&site, number, group, have)) return fault(&site, 64);
    for (int place = 0; place < count; place++) {
        files[place] = (struct file){none, none, false};
        if (!read_file(word[first + place], &files[place].text)) return fault(&site, 62);
    }
    sct_outcome restored = sct_site_restore(&site, number, group, files[0].text.at, files[0].text.length, NULL, 0);
    if (!restored.ok) return fault(&site, restored.code);
    struct text refused = answer_of(&site);
    while (round_of(&site, files + 1, count - 1) > 0) continue;
    int ended = answered(&site, word[1], have, refused, files + 1, count - 1);
    free(refused.at);
    for (int place = 0; place < count; place++) {
        free(files[place].text.at);
        free(files[place].why.at);
    }
    if (ended > 1) return fault(&site, ended);
    sct_site_close(&site);
    return ended;
}

/* ---- the calls of a hub, each of which is written */

struct life {
    sct_site site;
    int number;
    struct text lines, whole;         /* what it has to take, and a cut of everything */
    size_t taken;                     /* how many bytes of the lines it took */
    uint64_t kept;                    /* how many lines its journal has */
    struct text waiting[MOST_WAITING]; /* deltas that came */
    int count;
};

static void write_call(const char *name, int site, int numbers, const uint64_t *number, int texts, const struct text *text) {
    printf("%s %d", name, site);
    for (int place = 0; place < numbers; place++) printf(" %" PRIu64, number[place]);
    for (int place = 0; place < texts; place++) printf(" =%zu", text[place].length);
    putchar('\n');
    for (int place = 0; place < texts; place++) print(text[place], stdout);
}

static void write_result(struct life *life, struct text text) {
    struct text why = why_of(&life->site);
    printf("%zu %zu\n", text.length, why.length);
    print(text, stdout);
    print(why, stdout);
    free(why.at);
}

/* What a call wrote or made, which it returns. */
static struct text written(struct life *life, sct_outcome made, struct text text) {
    printf("%d %d %" PRIu64 " %zu %" PRIu64 " ", made.ok, made.code, made.place, made.length, made.reserved);
    write_result(life, text);
    return text;
}

static struct text answered_by(struct life *life, sct_outcome made) { return written(life, made, made.ok ? answer_of(&life->site) : none); }

static void open_site(struct life *life, uint16_t group) {
    uint64_t numbers[] = {(uint64_t)life->number, group};
    write_call("open", life->number, 2, numbers, 0, NULL);
    sct_outcome opened = sct_site_open(&life->site, (uint16_t)life->number, group);
    written(life, opened, none);
    must(opened.ok, "a site is not opened");
}

static struct text restore(struct life *life, uint16_t group, struct text journal, struct text delta) {
    uint64_t numbers[] = {(uint64_t)life->number, group};
    struct text texts[] = {journal, delta};
    write_call("restore", life->number, 2, numbers, 2, texts);
    return answered_by(life, sct_site_restore(&life->site, (uint16_t)life->number, group, journal.at, journal.length, delta.at,
                                              delta.length));
}

static void close_site(struct life *life) {
    write_call("close", life->number, 0, NULL, 0, NULL);
    sct_site_close(&life->site);
    printf("0 0\n");
}

static sct_outcome snapshot(struct life *life, struct life *other) {
    uint64_t place = (uint64_t)other->number;
    write_call("snapshot", life->number, 1, &place, 0, NULL);
    sct_outcome made = sct_site_snapshot(&life->site, &other->site);
    written(life, made, none);
    return made;
}

static sct_taken took(struct life *life, sct_taken taken) {
    printf("%d %d %d %" PRIu64 " %" PRIu64 " %" PRIu64 " ", taken.ok, taken.code, taken.is_repeat, taken.place, taken.number,
           taken.reserved);
    write_result(life, none);
    return taken;
}

static sct_taken take(struct life *life, struct text line) {
    write_call("take", life->number, 0, NULL, 1, &line);
    return took(life, sct_site_take(&life->site, line.at, line.length));
}

static sct_taken take_as(struct life *life, struct text banks, struct text line) {
    struct text texts[] = {banks, line};
    write_call("take_as", life->number, 0, NULL, 2, texts);
    return took(life, sct_site_take_as(&life->site, banks.at, banks.length, line.at, line.length));
}

static void take_lines(struct life *life, struct text lines) {
    write_call("take_lines", life->number, 0, NULL, 1, &lines);
    sct_lines taken = sct_site_take_lines(&life->site, lines.at, lines.length);
    printf("%d %d %" PRIu64 " %" PRIu64 " %" PRIu64 " %" PRIu64 " %zu %" PRIu64 " ", taken.ok, taken.code, taken.place, taken.fresh,
           taken.repeats, taken.refused, taken.length, taken.reserved);
    struct text refused = answer_of(&life->site);
    write_result(life, refused);
    free(refused.at);
}

static sct_accepted accept(struct life *life, struct text delta) {
    write_call("accept", life->number, 0, NULL, 1, &delta);
    sct_accepted accepted = sct_site_accept(&life->site, delta.at, delta.length);
    printf("%d %d %" PRIu64 " %" PRIu64 " %" PRIu64 " ", accepted.ok, accepted.code, accepted.place, accepted.fresh, accepted.reserved);
    write_result(life, none);
    return accepted;
}

static struct text cut(struct life *life, struct text vector) {
    write_call("cut", life->number, 0, NULL, 1, &vector);
    return answered_by(life, sct_site_cut(&life->site, vector.at, vector.length));
}

static struct text cut_above(struct life *life, const uint64_t *counts, size_t items) {
    struct text text = copy_of(counts, items * sizeof *counts);
    write_call("cut_above", life->number, 0, NULL, 1, &text);
    free(text.at);
    return answered_by(life, sct_site_cut_above(&life->site, counts, items));
}

static void counts_of(struct life *life, uint64_t *counts, size_t items) {
    uint64_t many = items;
    write_call("counts", life->number, 1, &many, 0, NULL);
    sct_outcome counted = sct_site_counts(&life->site, counts, items);
    struct text text = copy_of(counts, items * sizeof *counts);
    written(life, counted, text);
    free(text.at);
}

static struct text entries(struct life *life, uint64_t origin, uint64_t above, uint64_t most) {
    uint64_t numbers[] = {origin, above, most};
    write_call("entries", life->number, 3, numbers, 0, NULL);
    return answered_by(life, sct_site_entries(&life->site, (uint16_t)origin, above, most));
}

static struct text digest(struct life *life, uint64_t origin, uint64_t count) {
    uint64_t numbers[] = {origin, count};
    write_call("digest", life->number, 2, numbers, 0, NULL);
    return answered_by(life, sct_site_digest(&life->site, (uint16_t)origin, count));
}

static struct text journal_text(struct life *life, uint64_t above) {
    write_call("journal_text", life->number, 1, &above, 0, NULL);
    return answered_by(life, sct_site_journal_text(&life->site, above));
}

static void newest_text(struct life *life, uint64_t count) {
    write_call("newest_text", life->number, 1, &count, 0, NULL);
    free(answered_by(life, sct_site_newest_text(&life->site, count)).at);
}

static void read_lines(struct life *life, struct text lines) {
    write_call("reading_text", life->number, 0, NULL, 1, &lines);
    free(answered_by(life, sct_site_reading_text(&life->site, lines.at, lines.length)).at);
}

static void kept_text(struct life *life, struct text day) {
    write_call("kept_text", life->number, 0, NULL, 1, &day);
    free(answered_by(life, sct_site_kept_text(&life->site, day.at, day.length)).at);
}

static void closed_text(struct life *life, struct text day) {
    write_call("closed_text", life->number, 0, NULL, 1, &day);
    free(answered_by(life, sct_site_closed_text(&life->site, day.at, day.length)).at);
}

/* ---- for banks. All texts are constant, and nobody writes to them */

static const struct text bank_lists[] = {TEXT("HANSDEHH"), TEXT("LUTEFRPP,SCALBEBB"), TEXT("MEUSNL2R,RHEIDE3K,SUOMFIHH"),
                                         TEXT("TURIESMMXXX,ARNOITFF,ALPEATWW"), TEXT("HANSDEHH,"), TEXT("RHEIDE3K370,MEUSNL2RXXX")};
static const struct text originators[] = {TEXT("HANSDEHH"), TEXT("MEUSNL2R"), TEXT("RHEIDE3KXXX")};
static const struct text identifications[] = {TEXT("HH-0005"), TEXT("NL-1"), TEXT("RK-77")};
static const struct text settlement_day = TEXT("2025-03-10");
static const struct text list = TEXT("DbtrAgt,TxId,Amt,Sts\nHANSDEHH,HH-0005,1.00,PENDING\nRHEIDE3K,RK-77,1.00,PENDING\n");

static struct text transfer_text_for(struct life *life, struct text banks, struct text bank, struct text tx) {
    struct text texts[] = {banks, bank, tx};
    write_call("transfer_text_for", life->number, 0, NULL, 3, texts);
    return answered_by(life, sct_site_transfer_text_for(&life->site, banks.at, banks.length, bank.at, bank.length, tx.at, tx.length));
}

static struct text messages_text_for(struct life *life, struct text banks, struct text bank, struct text tx) {
    struct text texts[] = {banks, bank, tx};
    write_call("messages_text_for", life->number, 0, NULL, 3, texts);
    return answered_by(life, sct_site_messages_text_for(&life->site, banks.at, banks.length, bank.at, bank.length, tx.at, tx.length));
}

static struct text bank_totals_for(struct life *life, struct text banks, struct text bank) {
    struct text texts[] = {banks, bank};
    write_call("bank_totals_for", life->number, 0, NULL, 2, texts);
    return answered_by(life, sct_site_bank_totals_for(&life->site, banks.at, banks.length, bank.at, bank.length));
}

static struct text report_for(struct life *life, struct text banks, struct text bank) {
    struct text texts[] = {banks, bank, settlement_day, list};
    write_call("report_for", life->number, 0, NULL, 4, texts);
    return answered_by(life, sct_site_report_for(&life->site, banks.at, banks.length, bank.at, bank.length, settlement_day.at,
                                                 settlement_day.length, list.at, list.length));
}

static void evaluate(struct life *life) {
    write_call("evaluate", life->number, 0, NULL, 0, NULL);
    written(life, sct_site_evaluate(&life->site), none);
}

static void answer_end(struct life *life) {
    write_call("answer_end", life->number, 0, NULL, 0, NULL);
    free(answered_by(life, sct_site_answer_end(&life->site)).at);
}

static struct text asked(struct life *life, const char *name, sct_outcome (*question)(sct_site *)) {
    write_call(name, life->number, 0, NULL, 0, NULL);
    return answered_by(life, question(&life->site));
}

static sct_outcome vector_of(sct_site *site) { return sct_site_vector_text(site); }
static sct_outcome archive_of(sct_site *site) { return sct_site_archive_text(site); }
static sct_outcome status_of(sct_site *site) { return sct_site_status_text(site); }
static sct_outcome digests_of(sct_site *site) { return sct_site_digests_text(site); }
static sct_outcome changes_of(sct_site *site) { return sct_site_changes(site); }

/* ---- what happens at a hub */

static uint64_t drawn = 1;

/* A number below another one, by chance. */
static uint64_t below(uint64_t most) {
    drawn = drawn * 6364136223846793005u + 1442695040888963407u;
    return (drawn >> 33) % most;
}

static void journal_name(const char *folder, int number, char *name, size_t room) {
    int length = snprintf(name, room, "%s/journal%d", folder, number);
    must(length > 0 && (size_t)length < room, "the name of the folder is too long");
}

/* Has the journal what the site took since it was written last. */
static void keep_journal(struct life *life, const char *folder) {
    char name[512];
    uint64_t counts[MOST_SITES];
    struct text lines = journal_text(life, life->kept);
    journal_name(folder, life->number, name, sizeof name);
    FILE *file = fopen(name, "ab");
    must(file != NULL, "a journal is not opened");
    print(lines, file);
    must(!ferror(file) && fclose(file) == 0, "a journal is not written");
    free(lines.at);
    counts_of(life, counts, (size_t)life->number);
    life->kept = counts[life->number - 1];
}

/* The next lines of a site, or none. */
static struct text next_lines(struct life *life, uint64_t most) {
    struct text lines = {life->lines.at + life->taken, 0};
    for (uint64_t many = 0; many < most && life->taken < life->lines.length; many++) {
        const uint8_t *end = memchr(life->lines.at + life->taken, '\n', life->lines.length - life->taken);
        life->taken = end != NULL ? (size_t)(end - life->lines.at) + 1 : life->lines.length;
    }
    lines.length = (size_t)(life->lines.at + life->taken - lines.at);
    return lines;
}

/* A site takes some of its lines, in one call or one by one, and keeps them. */
static void take_some(struct life *life, const char *folder, uint64_t most) {
    if (below(2) == 0) {
        take_lines(life, next_lines(life, most));
    } else {
        struct text line = next_lines(life, 1);
        if (line.length > 0 && line.at[line.length - 1] == '\n') line.length--;
        if (!take_as(life, DRAWN(bank_lists), line).ok) take(life, line);
    }
    keep_journal(life, folder);
}

/* A delta comes to a site, if there is room for it. */
static void come(struct life *life, struct text delta) {
    if (life->count == MOST_WAITING) {
        free(delta.at);
        return;
    }
    life->waiting[life->count++] = delta;
}

/* A site gives another one what that lacks, or what a wrong vector says. The delta may be lost, or come twice. */
static void give(struct life *giver, struct life *taker, int group) {
    struct text delta;
    if (below(4) == 0) {
        uint64_t held[MOST_SITES], origin = 1 + below((uint64_t)group);
        counts_of(taker, held, (size_t)group);
        free(digest(taker, origin, below(1 + held[origin - 1])).at);
        free(asked(taker, "digests_text", digests_of).at);
        delta = entries(giver, origin, held[origin - 1], 1 + below(3000));
    } else if (below(3) > 0) {
        struct text vector = asked(taker, "vector_text", vector_of);
        delta = cut(giver, vector);
        free(vector.at);
    } else {
        uint64_t counts[MOST_SITES];
        for (int place = 0; place < group; place++) counts[place] = below(5);
        delta = cut_above(giver, counts, (size_t)group);
    }
    if (below(4) == 0) come(taker, copy_of(delta.at, delta.length));
    if (below(4) > 0)
        come(taker, delta);
    else
        free(delta.at);
}

/* A site accepts one of the deltas that came, or a damaged copy of it. It may come again. */
static void deliver(struct life *life) {
    if (life->count == 0) return;
    int place = (int)below((uint64_t)life->count);
    struct text delta = life->waiting[place];
    if (below(4) == 0) {
        struct text part = copy_of(delta.at, below(delta.length));
        must(accept(life, part).code == SCT_BAD_DELTA, "a delta that was cut short is not refused");
        free(part.at);
    }
    sct_accepted accepted = accept(life, delta);
    must(accepted.ok || accepted.code == SCT_GAP, "a delta is refused that is not early");
    if (accepted.fresh > 0) newest_text(life, accepted.fresh);
    if (below(2) == 0) {
        free(delta.at);
        life->waiting[place] = life->waiting[--life->count];
    }
}

/* A site stops, and begins again from its journal, and from a cut that it may have kept. */
static void begin_again(struct life *life, const char *folder, uint16_t group) {
    char name[512];
    struct text journal;
    uint64_t counts[MOST_SITES];
    close_site(life);
    journal_name(folder, life->number, name, sizeof name);
    must(read_file(name, &journal), "a journal cannot be read");
    struct text refused = restore(life, group, journal, below(2) == 0 ? life->whole : none);
    must(refused.length == 0, "a line of a journal is refused");
    counts_of(life, counts, (size_t)life->number);
    must(counts[life->number - 1] == life->kept, "a site has not the messages of its journal");
    free(refused.at);
    free(journal.at);
}

/* A question for banks. */
static struct text asked_for(struct life *life) {
    struct text banks = DRAWN(bank_lists);
    uint64_t place = below(3);
    switch (below(4)) {
    case 0: return transfer_text_for(life, banks, originators[place], identifications[place]);
    case 1: return messages_text_for(life, banks, originators[place], identifications[place]);
    case 2: return bank_totals_for(life, banks, originators[place]);
    default: return report_for(life, banks, originators[place]);
    }
}

static void question(struct life *life) {
    struct text vector = {(uint8_t *)"-", 1}, day = {(uint8_t *)"2025-03-11", 10}; /* casts of literals, to which nobody writes */
    switch (below(12)) {
    case 0: evaluate(life); break;
    case 1: answer_end(life); break;
    case 2: read_lines(life, life->lines); break;
    case 3: free(asked(life, "changes", changes_of).at); break;
    case 4: free(asked(life, "status_text", status_of).at); break;
    case 5: kept_text(life, day); break;
    case 6: closed_text(life, day); break;
    case 7: case 8: case 9: case 10: free(asked_for(life).at); break;
    default:
        free(life->whole.at);
        life->whole = cut(life, vector);
    }
}

/* A site has a snapshot made in the place of its own, if there is none yet. The snapshot is asked, and takes nothing. It may end. */
static void look(struct life *life, struct life *held) {
    sct_outcome made = snapshot(life, held);
    must(made.ok || made.code == SCT_FULL, "a snapshot is refused");
    for (uint64_t left = below(3); left > 0; left--) question(held);
    must(take(held, life->lines).code == SCT_SNAPSHOT, "a snapshot takes a message");
    must(accept(held, life->count > 0 ? life->waiting[0] : none).code == SCT_SNAPSHOT, "a snapshot accepts a delta");
    if (below(3) == 0) close_site(held);
}

static void step(struct life *lives, struct life *held, uint16_t group, const char *folder) {
    uint64_t which = below(group);
    struct life *life = &lives[which], *other = &lives[below(group)];
    switch (below(9)) {
    case 8: look(life, &held[which]); break;
    case 0: take_some(life, folder, 4); break;
    case 1: case 2: give(life, other, group); break;
    case 3: case 4: case 5: deliver(life); break;
    case 6: begin_again(life, folder, group); break;
    default: question(life);
    }
}

/* All sites take all that is left, and exchange what they hold. They then hold the same. */
static void bring_together(struct life *lives, int group, const char *folder) {
    for (int place = 0; place < group; place++) {
        take_lines(&lives[place], next_lines(&lives[place], UINT64_MAX));
        keep_journal(&lives[place], folder);
    }
    for (int turn = 1; turn < 2 * group - 1; turn++) { /* each to the first, and the first to each */
        struct life *other = &lives[turn < group ? turn : turn - group + 1];
        struct life *giver = turn < group ? other : &lives[0], *taker = turn < group ? &lives[0] : other;
        struct text vector = asked(taker, "vector_text", vector_of), delta = cut(giver, vector);
        must(accept(taker, delta).ok, "a delta is refused");
        free(vector.at);
        free(delta.at);
    }
}

/* Whether a question has one answer at all sites. */
static void must_agree(struct life *lives, int group, const char *name, sct_outcome (*question_of)(sct_site *)) {
    struct text first = asked(&lives[0], name, question_of);
    for (int place = 1; place < group; place++) {
        struct text other = asked(&lives[place], name, question_of);
        must(is_same(first, other), "two sites differ");
        free(other.at);
    }
    free(first.at);
}

/* A site that lost the last line of its journal, and one that has another message in place of its first. Nobody accepts what they cut. */
static void fork_site(struct life *lives, int group, int which, struct text other) {
    struct life twin = {SCT_SITE_EMPTY, group + 1, none, none, 0, 0, {none}, 0};
    struct text vector = {(uint8_t *)"-", 1}; /* a cast of a literal, which nobody writes to */
    struct text journal = journal_text(&lives[which], 0), whole = cut(&lives[which], vector);
    uint64_t numbers[] = {(uint64_t)which + 1, (uint64_t)group};
    size_t length = journal.length - 1;
    while (length > 0 && journal.at[length - 1] != '\n') length--;
    struct text texts[] = {{length > 0 ? journal.at : NULL, length}, none};
    write_call("restore", twin.number, 2, numbers, 2, texts);
    free(answered_by(&twin, sct_site_restore(&twin.site, (uint16_t)(which + 1), (uint16_t)group, texts[0].at, length, NULL, 0)).at);
    must(accept(&twin, whole).code == SCT_OWN_AHEAD, "a site does not see that its journal lost a line");
    struct text why = why_of(&twin.site);
    must(begins_with(why, "43 "), "a journal that lost a line has another reason");
    free(why.at);
    close_site(&twin);
    write_call("open", twin.number, 2, numbers, 0, NULL);
    written(&twin, sct_site_open(&twin.site, (uint16_t)(which + 1), (uint16_t)group), none);
    must(take(&twin, other).number == 1, "another message is not taken");
    struct text delta = cut(&twin, vector);
    for (int place = 0; place < group; place++) {
        must(accept(&lives[place], delta).code == SCT_FORK, "a fork is not refused");
        why = why_of(&lives[place].site);
        must(begins_with(why, "42 "), "a fork has another reason");
        free(why.at);
    }
    close_site(&twin);
    free(delta.at);
    free(whole.at);
    free(journal.at);
}

static void end_life(struct life *life) {
    close_site(life);
    free(life->lines.at);
    free(life->whole.at);
    for (int place = 0; place < life->count; place++) free(life->waiting[place].at);
}

static int hub_of(int words, char **word) {
    static struct life lives[MOST_SITES], held[MOST_SITES]; /* static, and so all handles are SCT_SITE_EMPTY. A snapshot is of a site */
    int group = words - 6;
    must(group >= 1 && group <= MOST_SITES, "usage: header_alone hub SEED STEPS FOLDER OTHER FILE..");
    drawn = strtoull(word[2], NULL, 10);
    const char *folder = word[4];
    for (int place = 0; place < group; place++) {
        lives[place].number = place + 1;
        must(read_file(word[6 + place], &lives[place].lines), "a file cannot be read");
        held[place].number = place + 100;
        held[place].lines = copy_of(lives[place].lines.at, lives[place].lines.length);
        open_site(&lives[place], (uint16_t)group);
        keep_journal(&lives[place], folder);
    }
    for (long left = atol(word[3]); left > 0; left--) step(lives, held, (uint16_t)group, folder);
    bring_together(lives, group, folder);
    must_agree(lives, group, "vector_text", vector_of);
    must_agree(lives, group, "archive_text", archive_of);
    for (int place = 0; place < group; place++) fork_site(lives, group, place, (struct text){(uint8_t *)word[5], strlen(word[5])});
    must_agree(lives, group, "archive_text", archive_of);
    must_agree(lives, group, "status_text", status_of);
    for (int place = 0; place < group; place++) {
        end_life(&lives[place]);
        end_life(&held[place]);
    }
    return 0;
}

int main(int words, char **word) {
    must(words > 1, "usage: header_alone COMMAND ..");
    must(sct_version() / 1000 == SCT_VERSION_NUMBER / 1000, "the library has another version than the header");
    int ended = strcmp(word[1], "hub") == 0 ? hub_of(words, word) : command_of(words, word);
    return fflush(stdout) == 0 ? ended : 70;
}
