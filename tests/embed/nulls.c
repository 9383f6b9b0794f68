/* nulls.c: makes each call that takes a pointer with a null pointer and the length 0, and prints what each came to. It is C and C++. */
#include <niluppang.h>
#include <stdio.h>

static sct_site site = SCT_SITE_EMPTY;

static void made(const char *name, sct_outcome it) {
    printf("%s %d %d %lu %lu %lu\n", name, it.ok, it.code, it.place, (unsigned long)it.length, it.reserved);
}

static void took(const char *name, sct_taken it) {
    printf("%s %d %d %d %lu %lu %lu\n", name, it.ok, it.code, it.is_repeat, it.place, it.number, it.reserved);
}

static void take_nothing(void) {
    took("take", sct_site_take(&site, NULL, 0));
    took("take_as", sct_site_take_as(&site, NULL, 0, NULL, 0));
    sct_lines lines = sct_site_take_lines(&site, NULL, 0);
    printf("take_lines %d %d %lu %lu %lu %lu %lu %lu\n", lines.ok, lines.code, lines.place, lines.fresh, lines.repeats, lines.refused,
           (unsigned long)lines.length, lines.reserved);
    sct_accepted accepted = sct_site_accept(&site, NULL, 0);
    printf("accept %d %d %lu %lu %lu\n", accepted.ok, accepted.code, accepted.place, accepted.fresh, accepted.reserved);
}

static void ask_nothing(void) {
    made("counts", sct_site_counts(&site, NULL, 0));
    made("cut", sct_site_cut(&site, NULL, 0));
    made("reading_text", sct_site_reading_text(&site, NULL, 0));
    made("report", sct_site_report(&site, NULL, 0, NULL, 0, NULL, 0));
    made("kept_text", sct_site_kept_text(&site, NULL, 0));
    made("closed_text", sct_site_closed_text(&site, NULL, 0));
    made("transfer_text", sct_site_transfer_text(&site, NULL, 0, NULL, 0));
    made("messages_text", sct_site_messages_text(&site, NULL, 0, NULL, 0));
    made("bank_totals", sct_site_bank_totals(&site, NULL, 0));
    made("cut_above", sct_site_cut_above(&site, NULL, 0));
    made("transfer_text_for", sct_site_transfer_text_for(&site, NULL, 0, NULL, 0, NULL, 0));
    made("messages_text_for", sct_site_messages_text_for(&site, NULL, 0, NULL, 0, NULL, 0));
    made("bank_totals_for", sct_site_bank_totals_for(&site, NULL, 0, NULL, 0));
    made("report_for", sct_site_report_for(&site, NULL, 0, NULL, 0, NULL, 0, NULL, 0));
}

static void copy_nothing(void) {
    made("answer", sct_site_answer(&site, NULL, 0));
    made("answer_part", sct_site_answer_part(&site, 3, NULL, 0));
    made("answer_end", sct_site_answer_end(&site));
    made("answer", sct_site_answer(&site, NULL, 0));
    made("why", sct_site_why(&site, NULL, 0));
    printf("code_name %lu\n", (unsigned long)sct_code_name(SCT_GAP, NULL, 0));
    printf("code_text %lu\n", (unsigned long)sct_code_text(SCT_GAP, NULL, 0));
}

int main(void) {
    made("restore", sct_site_restore(&site, 1, 2, NULL, 0, NULL, 0));
    take_nothing();
    ask_nothing();
    copy_nothing();
    sct_site_close(&site);
    return 0;
}
