/* Niluppang: the proved site of a clearing hub for SEPA Instant Credit Transfers, for programs in C and in languages that call C.
 *
 * A site holds the messages that it took and those that it accepted from other sites, and answers about them. It works on bytes:
 * messages are JSON objects, and deltas and answers are texts (docs/users/formats.md). It has no network, no file and no thread. It keeps
 * nothing when the program ends. The program keeps the site's journal, its own messages, and restores the site from it.
 *
 *     #include <niluppang.h>                                   cc hub.c -lniluppang
 *
 *     sct_site site = SCT_SITE_EMPTY;
 *     sct_outcome opened = sct_site_open(&site, 1, 3);         site 1 of a group of 3; read `ok` after each call
 *     sct_taken taken = sct_site_take(&site, json, length);
 *     sct_outcome made = sct_site_status_text(&site);          the site has an answer of made.length bytes
 *     sct_outcome copied = sct_site_answer(&site, buffer, made.length);
 *     sct_site_close(&site);
 *
 * In C++ the class `niluppang::site` has the handle, and closes it. `niluppang::site_snapshot` is a snapshot of one.
 *
 * What a caller owes. Nothing checks it:
 * - A handle (sct_site) is SCT_SITE_EMPTY, all zero, before its first call. After that the caller neither reads nor writes what is in
 *   it, and does not copy it. It may move to another address between two calls, if the old one is not used any more.
 * - One call at a time uses a handle. That holds of each call, also of those that only read: two threads never share a handle without
 *   a lock. Different handles are independent, also those of a site and its snapshots: different threads may use them at once. A handle
 *   may pass from thread to thread by a lock, or by the start or the end of a thread.
 * - At a pointer are as many items as its length says. It may be null if its length is 0. What a call writes overlaps nothing else.
 *   A length is below 2^63.
 * - No call comes from a signal handler, or after fork in the child of a process with several threads.
 * - Each thread that calls has at least 256 KB of stack.
 *
 * What a call does. Each call ends. It starts no thread, takes no lock, opens no file and prints nothing. It calls malloc, realloc,
 * free, memcpy, memmove, memset and memcmp. Its memory belongs to the handle: sct_site_close frees all of it. What a site and its
 * snapshots share is freed with the last of them. It keeps no pointer of the caller. Texts, in and out, are UTF-8 with a length: no zero
 * byte ends them.
 *
 * Refusals. A call whose `ok` is false has changed nothing of the site but what sct_site_why copies, with one exception, which
 * sct_site_take_lines names. Its `code` says why, and its counts and length are 0. `code` is 0 if `ok` is true. sct_site_why has the whole
 * reason, such as the key that is wrong.
 *
 *     31 NotJson           the bytes are not one JSON text in UTF-8
 *     32 NotObject         the JSON text is not an object
 *     33 UnknownKind       MsgNmId is not a name of one of the six kinds of message
 *     34 Missing           a key that the kind needs is absent
 *     35 NotText           the value of a key is not a text
 *     36 Element           the text of a key is not of the key's type
 *     37 Extra             the object has a key that the kind does not have
 *     38 Rule              a rule of the kind is broken
 *     41 Gap               the delta begins after what the site holds of its origin
 *     42 Fork              the delta has another message under a number that the site holds
 *     43 OwnAhead          the delta has messages of this site that it does not hold: its journal lost some
 *     44 BadSite           there is no such site in a group of 1 to 1024 sites
 *     45 BadDelta          the text is not a delta: the place is that of its first wrong line
 *     46 BadTransactions   TxInf is not a list of 1 to 100 objects: the place is that of the first one that is no object, or 0
 *     48 BadList           the list is not valid: the place is that of its first wrong record, from 1 with the header
 *     56 At                the transaction of TxInf at the place has a fault
 *     65 Memory            out of memory; the call can be made again
 *     70 Empty             the handle has no site
 *     71 Full              the handle has a site already
 *     72 BadVector         the text is not a version vector
 *     73 BadArgument       a bank, an identification, a day, an origin, a count or a size is not valid: the place is that of the argument, from 1
 *     79 NotYours          the bank is none of the banks that ask
 *     81 NotSender         the sender of the message is none of the banks in whose name it is sent
 *     82 NotOriginator     the originator bank of the transaction at the place is none of the banks
 *     83 NotBeneficiary    the beneficiary bank of each instruction on the transfer is none of the banks
 *     84 Waits             no instruction on the transfer is held yet; the call can be made again when there is one
 *     85 Snapshot          the handle has a snapshot of a site, which takes nothing
 *
 * `place` counts from 1. It is 0 with every other number. docs/users/codes.md has a remedy for each.
 *
 * Other languages. The functions that the library gives away are sct_version, and one for each other call: its name begins with sct_raw_,
 * and goes on as that of the call after sct_site_ or sct_. Only C and C++ see the names of the calls: they are inline, and pass the address
 * of some word in place of a pointer to no items. Who calls the library by another way does the same: a raw function is never given null.
 */
#ifndef NILUPPANG_H
#define NILUPPANG_H

#include <stdbool.h>
#include <stddef.h>
#include <stdint.h>

#if !defined(__x86_64__) || !defined(__LP64__)
#error "niluppang is made for x86-64 with addresses and size_t of 64 bits"
#endif

#ifdef __cplusplus
extern "C" {
#endif

/* The version of this header. SCT_VERSION_NUMBER is written as sct_version() returns the version of the library that runs: 1000000 for
 * each major, 1000 for each minor, 1 for each patch version. The library fits the header if all but the last three digits are equal. */
#define SCT_VERSION_MAJOR 0
#define SCT_VERSION_MINOR 3
#define SCT_VERSION_PATCH 0
#define SCT_VERSION_NUMBER (1000000 * SCT_VERSION_MAJOR + 1000 * SCT_VERSION_MINOR + SCT_VERSION_PATCH)
#define SCT_VERSION "0.3.0"

uint32_t sct_version(void);

/* The numbers of refusals, as `code` has them. */
typedef enum sct_code {
    SCT_OK = 0,
    SCT_NOT_JSON = 31,
    SCT_NOT_OBJECT = 32,
    SCT_UNKNOWN_KIND = 33,
    SCT_MISSING = 34,
    SCT_NOT_TEXT = 35,
    SCT_ELEMENT = 36,
    SCT_EXTRA = 37,
    SCT_RULE = 38,
    SCT_GAP = 41,
    SCT_FORK = 42,
    SCT_OWN_AHEAD = 43,
    SCT_BAD_SITE = 44,
    SCT_BAD_DELTA = 45,
    SCT_BAD_TRANSACTIONS = 46,
    SCT_BAD_LIST = 48,
    SCT_AT = 56,
    SCT_MEMORY = 65,
    SCT_EMPTY = 70,
    SCT_FULL = 71,
    SCT_BAD_VECTOR = 72,
    SCT_BAD_ARGUMENT = 73,
    SCT_NOT_YOURS = 79,
    SCT_NOT_SENDER = 81,
    SCT_NOT_ORIGINATOR = 82,
    SCT_NOT_BENEFICIARY = 83,
    SCT_WAITS = 84,
    SCT_SNAPSHOT = 85
} sct_code;

/* A handle: 16 bytes that the caller keeps anywhere, and whose address it passes. What is in it is the library's. */
typedef struct sct_site {
    void *private_address;
    bool private_is_full;
} sct_site;

#define SCT_SITE_EMPTY { 0, false }

/* What a call came to. `length` is the length of the answer in bytes, if the call makes or copies one. `reserved` is 0 in each result:
 * a later version may have a meaning for it. */
typedef struct sct_outcome {
    bool ok;
    uint8_t code;
    uint64_t place;
    size_t length;
    uint64_t reserved;
} sct_outcome;

/* What a take came to. If the site held the message already, `is_repeat` is true and `number` is 0. Else `number` is the number of
 * the message among the site's own, from 1. */
typedef struct sct_taken {
    bool ok;
    uint8_t code;
    bool is_repeat;
    uint64_t place;
    uint64_t number;
    uint64_t reserved;
} sct_taken;

/* What taking many lines came to: `fresh` messages are new, `repeats` were held, `refused` lines are not messages.
 * `length` is the length of the answer in bytes. */
typedef struct sct_lines {
    bool ok;
    uint8_t code;
    uint64_t place;
    uint64_t fresh;
    uint64_t repeats;
    uint64_t refused;
    size_t length;
    uint64_t reserved;
} sct_lines;

/* What an accept came to: `fresh` entries of the delta are new. An entry is a message under its number at the site that took it. */
typedef struct sct_accepted {
    bool ok;
    uint8_t code;
    uint64_t place;
    uint64_t fresh;
    uint64_t reserved;
} sct_accepted;

/* The sizes are part of the binary interface. */
#if defined(__cplusplus) && __cplusplus >= 201103L
#define SCT_PRIVATE_ASSERT(holds, what) static_assert(holds, what)
#elif !defined(__cplusplus) && defined(__STDC_VERSION__) && __STDC_VERSION__ >= 201112L
#define SCT_PRIVATE_ASSERT(holds, what) _Static_assert(holds, what)
#else
#define SCT_PRIVATE_ASSERT(holds, what) struct sct_private_assert
#endif
SCT_PRIVATE_ASSERT(sizeof(sct_site) == 16, "a handle has 16 bytes");
SCT_PRIVATE_ASSERT(sizeof(sct_outcome) == 32, "an outcome has 32 bytes");
SCT_PRIVATE_ASSERT(sizeof(sct_taken) == 32, "what a take came to has 32 bytes");
SCT_PRIVATE_ASSERT(sizeof(sct_lines) == 56, "what a take of lines came to has 56 bytes");
SCT_PRIVATE_ASSERT(sizeof(sct_accepted) == 32, "what an accept came to has 32 bytes");

/* Each call is an inline function, which is defined at the end. A compiler warns if its result is dropped. */
#define SCT_CALL static inline
#if defined(__GNUC__)
#define SCT_READ __attribute__((warn_unused_result))
#else
#define SCT_READ
#endif

/* ---- a site begins and ends ---- */

/* Opens site `number` of a group of `group` sites, both 1 to 1024, in an empty handle. It holds nothing. The group is the same at
 * all sites, and for ever.
 * Refusals: 44, 65, 71. */
SCT_CALL SCT_READ sct_outcome sct_site_open(sct_site *site, uint16_t number, uint16_t group);

/* Opens a site that was there before, in an empty handle. The journal is the site's own messages, one JSON object on each line, in
 * the order of their numbers: what it took, but no repeat. A repeat may be a message of another site: in the journal it would be
 * given a number, and all after it another one than before (42, 43). The delta is a cut that the site kept, or that a peer made.
 * Without one its length is 0. What is refused of the two is left out. The answer has a line for each refused line of the journal,
 * such as `file 1 line 8: 31`, and one if the delta is refused, such as `file 2: 41 3 0 7`. It is empty if nothing is refused.
 * Refusals: 44, 65, 71. */
SCT_CALL SCT_READ sct_outcome sct_site_restore(sct_site *site, uint16_t number, uint16_t group, const uint8_t *journal,
                                               size_t journal_length, const uint8_t *delta, size_t delta_length);

/* Ends the site, if there is one, and frees its memory. The handle is empty afterwards. */
SCT_CALL void sct_site_close(sct_site *site);

/* ---- messages and deltas in ---- */

/* Takes the message that one JSON object is. It becomes the site's own message `number`, unless the site holds it already. If it is
 * no repeat, write it to the journal, on one line, before you acknowledge it to anyone, and before the next cut.
 * Refusals: 31 to 38, 46, 56, 65, 70, 85. */
SCT_CALL SCT_READ sct_taken sct_site_take(sct_site *site, const uint8_t *json, size_t length);

/* As sct_site_take, if the message may be sent in the name of some banks. `banks` is a text such as `BANKDEFF,BANQFRPP`: 1 to 16 BICs of
 * 8 or 11 characters, with commas between them. They are the banks for which a client stands. Who stands for which is up to the caller. A
 * message that may not be sent is refused by the first of these that holds:
 *
 *     81    its sender, InstgAgt, is none of the banks
 *     82    it is a pacs.008, camt.056 or pacs.028, and DbtrAgt of some transaction is none of them. The place is that of the first such one
 *     84    it is a pacs.002, pacs.004 or camt.029, and the site holds no instruction on its transfer, which sct_site_why names
 *     83    it is one of these three, and CdtrAgt of no instruction on its transfer is one of the banks
 *
 * An instruction is a pacs.008. It counts also if it is contradicted. A message that is refused by 84 can be sent again when the instruction
 * is held. So 83 and 84 show whether one is. The cost is that of a take, and of a pacs.002, pacs.004 or camt.029 also that of the messages
 * on its transfer. What is new is filed by its transfers.
 * Refusals: 31 to 38, 46, 56, 65, 70, 73 (1: the banks), 81 to 85. */
SCT_CALL SCT_READ sct_taken sct_site_take_as(sct_site *site, const uint8_t *banks, size_t banks_length, const uint8_t *json, size_t length);

/* Takes the messages of a text, one JSON object on each line. Blank lines are passed over. The answer has a line for each refused
 * line, such as `line 8: 36 InstgAgt 1`; `ok` is true all the same. It does not say which lines are repeats. The new ones are the last
 * lines of the journal: sct_site_journal_text above the number of lines that the journal had has them.
 * Refusals: 65, 70, 85. With 65 some of the first messages may be taken; the text can be taken again. */
SCT_CALL SCT_READ sct_lines sct_site_take_lines(sct_site *site, const uint8_t *text, size_t length);

/* Accepts a delta, a text of form 1 or 2 as sct_site_cut makes it. All of it is accepted, or nothing. sct_site_newest_text of `fresh`
 * messages has what was new.
 * Refusals: 41 to 45, 65, 70, 85. */
SCT_CALL SCT_READ sct_accepted sct_site_accept(sct_site *site, const uint8_t *text, size_t length);

/* ---- a snapshot: it is asked while its site goes on ---- */

/* Puts a snapshot of a site into another handle, which is empty. The snapshot is a site of its own: it has the number and the group of
 * `site`, holds what `site` holds now, and has an empty answer and no watch of changes. It stays so whatever becomes of `site`. Each call
 * that asks works on it as on a site, and answers what `site` would have answered when the snapshot was made. Its first question goes through
 * everything, and later ones do not. Each call that takes or accepts is refused there by 85, whatever it is given. A snapshot of it is equal
 * to it.
 *
 * `site` and `snapshot` are different handles, and independent of each other: one thread may ask the snapshot while another one has the
 * site take messages. Each is closed by itself, in any order. The cost is that of an address for each 4096 messages that are held, and of
 * one for each of at most 4095 more. No message is copied. The first take, accept or snapshot after sct_site_restore copies an address for
 * each message that was restored.
 * Refusals: 65, 70, 71 (`snapshot` has a site, and keeps it). With 65 `snapshot` stays empty. */
SCT_CALL SCT_READ sct_outcome sct_site_snapshot(sct_site *site, sct_site *snapshot);

/* ---- what the site holds, and deltas out ---- */

/* Writes into `counts` how many messages of site 1, 2, .. `items` this site holds: its version vector. Items past the group are 0.
 * Refusals: 44 (more than 1024 items), 65 (a snapshot's first question), 70. */
SCT_CALL SCT_READ sct_outcome sct_site_counts(sct_site *site, uint64_t *counts, size_t items);

/* The answer becomes the version vector as text, such as `1:20,3:7`: of site 1 this site holds 20 messages, and 7 of site 3. It is
 * `-` if nothing is held.
 * Refusals: 65, 70. */
SCT_CALL SCT_READ sct_outcome sct_site_vector_text(sct_site *site);

/* The answer becomes the delta, a text of form 2, of what the site holds above a version vector of text: above `-`, everything.
 * Refusals: 65, 70, 72. */
SCT_CALL SCT_READ sct_outcome sct_site_cut(sct_site *site, const uint8_t *vector, size_t length);

/* As sct_site_cut, above a vector of counts, of site 1 first. A site after the last item counts 0.
 * Refusals: 44 (more than 1024 items), 65, 70. */
SCT_CALL SCT_READ sct_outcome sct_site_cut_above(sct_site *site, const uint64_t *counts, size_t items);

/* The answer becomes a delta, a text of form 2, of the messages of one site numbered above a count, in their order: as many as a text of
 * `most` bytes has room for, and at least one if there is one. A site that asks so again and again, each time above what it holds, has all
 * when a text without a message comes. `origin` is 1 to 1024, and one that is no site of the group has no messages. `most` is 1 to 67108863.
 * The cost is that of the text and of one message, and not that of what is held.
 * Refusals: 65, 70, 73 (1: the origin, 3: `most`). */
SCT_CALL SCT_READ sct_outcome sct_site_entries(sct_site *site, uint16_t origin, uint64_t above, uint64_t most);

/* The answer becomes the digest of the first `count` messages of one site, in the order of their numbers, as 64 small hexadecimal digits.
 * The digest of no messages is 32 bytes of 0. That of some messages and one more is SHA-256 of the digest before it and of the line of that
 * message in the archive text, with its line feed. So two sites with one digest of a count hold the same messages up to it. `origin` is
 * 1 to 1024, and one that is no site of the group has no messages. The cost is that of the messages that came since a digest was asked
 * for, or that of 1024 messages.
 * Refusals: 65, 70, 73 (1: the origin, 2: the count is above what the site holds). */
SCT_CALL SCT_READ sct_outcome sct_site_digest(sct_site *site, uint16_t origin, uint64_t count);

/* The answer becomes a line such as `3:7:05c1..` for each site of which this one holds messages, ascending: its number, how many messages of
 * it are held, and the digest of all of them. Two sites with equal texts hold the same messages under the same numbers. The cost is that of
 * the messages that came since digests were asked for, and one look at each site.
 * Refusals: 65, 70. */
SCT_CALL SCT_READ sct_outcome sct_site_digests_text(sct_site *site);

/* The answer becomes the site's own messages numbered above a count, one on each line, as the archive text has them: the lines that a
 * journal lacks which has so many lines. Its cost is that of what came since the last one that is left out.
 * Refusals: 65, 70. */
SCT_CALL SCT_READ sct_outcome sct_site_journal_text(sct_site *site, uint64_t above);

/* The answer becomes the messages that came last, at most so many, one on each line, as the archive text has them, in the order in
 * which they came. After an accept of `fresh` entries the newest `fresh` messages are those.
 * Refusals: 65, 70. */
SCT_CALL SCT_READ sct_outcome sct_site_newest_text(sct_site *site, uint64_t count);

/* ---- reading: what a message is, without taking it ---- */

/* The answer becomes what the site reads in a text of messages, one JSON object on each line. It has a line for each line that is not
 * blank, in their order: the message as the archive text has it, so that each key is there once, or why it is refused, such as
 * `line 8: 36 InstgAgt 1`. A message begins with `{`. The site takes none of them.
 * Refusals: 65, 70. */
SCT_CALL SCT_READ sct_outcome sct_site_reading_text(sct_site *site, const uint8_t *text, size_t length);

/* ---- answers on everything held: equal for all sites that hold the same messages ---- */

/* Evaluates what is new, so that the next question does not have to. Every answer is what it is without this call, and the answer that
 * the site keeps stays. After a restore this is the evaluation of everything.
 * Refusals: 65, 70. */
SCT_CALL SCT_READ sct_outcome sct_site_evaluate(sct_site *site);

/* The answer becomes the archive text, each message held on a line.
 * Refusals: 65, 70. */
SCT_CALL SCT_READ sct_outcome sct_site_archive_text(sct_site *site);

/* The answer becomes the status text: T, F and R lines of each transfer.
 * Refusals: 65, 70. */
SCT_CALL SCT_READ sct_outcome sct_site_status_text(sct_site *site);

/* The answer becomes the totals text, a line for each bank.
 * Refusals: 65, 70. */
SCT_CALL SCT_READ sct_outcome sct_site_totals_text(sct_site *site);

/* The answer becomes a line for each identity that two different messages have, such as `BANKDEFFXXX|pacs.008|M1`.
 * Refusals: 65, 70. */
SCT_CALL SCT_READ sct_outcome sct_site_contradictions_text(sct_site *site);

/* The answer becomes the report on a bank's list for a settlement day, YYYY-MM-DD: how the list and the messages differ. The list
 * is CSV with the header `DbtrAgt,TxId,Amt,Sts`.
 * Refusals: 48, 65, 70, 73 (1: the bank, 2: the day). */
SCT_CALL SCT_READ sct_outcome sct_site_report(sct_site *site, const uint8_t *bank, size_t bank_length, const uint8_t *day,
                                              size_t day_length, const uint8_t *list, size_t list_length);

/* The answer becomes the archive text of what is kept on a day, YYYY-MM-DD: each message on a transfer that is not done before the
 * day, and all that have an identity or a transfer in common with one that is kept. A transfer is done before a day if its status
 * is final, each of its recalls was answered, and each message on it was created before the day.
 * Refusals: 65, 70, 73 (1: the day). */
SCT_CALL SCT_READ sct_outcome sct_site_kept_text(sct_site *site, const uint8_t *day, size_t day_length);

/* The answer becomes the archive text of what is closed on a day: the messages held that are not kept. No line of a transfer in
 * the status text of either part differs from that of the whole.
 * Refusals: 65, 70, 73 (1: the day). */
SCT_CALL SCT_READ sct_outcome sct_site_closed_text(sct_site *site, const uint8_t *day, size_t day_length);

/* ---- answers on one transfer or bank: their cost does not grow with what is held ----
 *
 * The first question after messages came evaluates what is new, and the first one after a restore evaluates everything. */

/* The answer becomes the lines of one transfer in the status text: its T line, an F line for each finding, an R line for each
 * recall. A transfer that no message is on has the line `T|BANK|TX|UNKNOWN`. A transfer is named by its originator bank, a BIC of 8
 * or 11 characters, and its identification.
 * Refusals: 65, 70, 73 (1: the bank, 2: the identification). */
SCT_CALL SCT_READ sct_outcome sct_site_transfer_text(sct_site *site, const uint8_t *bank, size_t bank_length, const uint8_t *tx,
                                                     size_t tx_length);

/* The answer becomes the lines of the archive text that have the messages on one transfer.
 * Refusals: 65, 70, 73 (1: the bank, 2: the identification). */
SCT_CALL SCT_READ sct_outcome sct_site_messages_text(sct_site *site, const uint8_t *bank, size_t bank_length, const uint8_t *tx,
                                                     size_t tx_length);

/* The answer becomes the line of one bank as the totals text has it, also if all its numbers are 0.
 * Refusals: 65, 70, 73 (1: the bank). */
SCT_CALL SCT_READ sct_outcome sct_site_bank_totals(sct_site *site, const uint8_t *bank, size_t bank_length);

/* ---- the same for banks: they see no transfer of others ----
 *
 * `banks` is a text as in sct_site_take_as. A transfer is theirs if its originator bank is one of them, or the beneficiary bank of an
 * instruction on it. If the site holds no instruction on it, it is theirs if one of them sent a message on it, or was sent one (InstgAgt,
 * InstdAgt). A message that is contradicted counts: two instructions on one transfer, to two banks, make it theirs for both.
 *
 * On a transfer that is theirs the answers are those of a site that holds the messages on transfers of theirs, and with each of them all
 * messages of its identity: the same lines and the same row of a report as without banks. On every other transfer the answers are those of
 * a site that holds nothing. So no answer depends on a message on transfers of others, on what a recall says of one, or on the message
 * from which a contradicted one differs. The first wrong argument is refused by 73, then a bank of others by 79, and then a list by 48. */

/* As sct_site_transfer_text, for banks. A transfer that is not theirs has the line `T|BANK|TX|UNKNOWN`.
 * Refusals: 65, 70, 73 (1: the banks, 2: the bank, 3: the identification). */
SCT_CALL SCT_READ sct_outcome sct_site_transfer_text_for(sct_site *site, const uint8_t *banks, size_t banks_length, const uint8_t *bank,
                                                         size_t bank_length, const uint8_t *tx, size_t tx_length);

/* As sct_site_messages_text, for banks. A transfer that is not theirs has no messages. A camt.056 is shown as it is to its sender; to others
 * it has only those of its transactions that are on transfers of theirs, and no TxInf if this is one. Messages that are shown alike are one
 * line.
 * Refusals: 65, 70, 73 (1: the banks, 2: the bank, 3: the identification). */
SCT_CALL SCT_READ sct_outcome sct_site_messages_text_for(sct_site *site, const uint8_t *banks, size_t banks_length, const uint8_t *bank,
                                                         size_t bank_length, const uint8_t *tx, size_t tx_length);

/* As sct_site_bank_totals, for banks, of which the bank is one.
 * Refusals: 65, 70, 73 (1: the banks, 2: the bank), 79. */
SCT_CALL SCT_READ sct_outcome sct_site_bank_totals_for(sct_site *site, const uint8_t *banks, size_t banks_length, const uint8_t *bank,
                                                       size_t bank_length);

/* As sct_site_report, for banks, of which the bank is one. A row of the list on a transfer that is not theirs is as a row on a transfer
 * without messages: ONLY_IN_LIST and UNKNOWN, or LISTED_TWICE. The cost is that of the list and of the messages on transfers of the bank.
 * Refusals: 48, 65, 70, 73 (1: the banks, 2: the bank, 3: the day), 79. */
SCT_CALL SCT_READ sct_outcome sct_site_report_for(sct_site *site, const uint8_t *banks, size_t banks_length, const uint8_t *bank,
                                                  size_t bank_length, const uint8_t *day, size_t day_length, const uint8_t *list,
                                                  size_t list_length);

/* ---- what changed ---- */

/* The answer becomes a line `BANK|TX` for each transfer whose lines may have changed since the call before, ascending. BANK has 11
 * characters, and TX no `|`. Every other transfer has the lines that it had then. The first call begins the watch, and its answer
 * is empty. From then on, the site keeps the names of changed transfers until the next call.
 * Refusals: 65, 70. */
SCT_CALL SCT_READ sct_outcome sct_site_changes(sct_site *site);

/* ---- the answer ---- */

/* Copies the answer to `out` if it fits into `room` bytes, and writes nothing otherwise. `ok` is true and `length` is the length of
 * the answer in both cases. The answer stays until a call makes another. It is empty before the first.
 * Refusal: 70. */
SCT_CALL SCT_READ sct_outcome sct_site_answer(sct_site *site, uint8_t *out, size_t room);

/* Copies a part of the answer to `out`: at most `room` bytes, from the byte at `from` on, which counts from 0. `length` is how many
 * were copied. It is 0 at the end of the answer and past it.
 * Refusal: 70. */
SCT_CALL SCT_READ sct_outcome sct_site_answer_part(sct_site *site, size_t from, uint8_t *out, size_t room);

/* The answer becomes empty, and its memory is freed.
 * Refusal: 70. */
SCT_CALL SCT_READ sct_outcome sct_site_answer_end(sct_site *site);

/* ---- why a call was refused ---- */

/* Copies to `out` why the last call of this site was refused, as the program prints it, such as `36 InstgAgt 1`: the number, and what
 * is wrong. It is copied if it fits into `room` bytes, and `length` is its length in both cases. It is empty if that call was not
 * refused. The last call is the last one that takes, accepts, makes a snapshot of this site or makes an answer. It is not one of the four
 * that copy or end an answer or copy this text, and it is none that opens a site, asks for counts or is refused by 71. In this text
 *
 *     34 KEY, 35 KEY, 37 KEY     are followed by the key
 *     36 KEY NUMBER, 38 NUMBER   by what is wrong with its text, and by the rule that is broken (docs/users/codes.md)
 *     41 SITE HAVE FIRST         by the origin, how many of its messages are held, and the first number of the delta
 *     42 SITE NUMBER, 43 NUMBER  by the number under which two messages differ, and by the one that the journal lost
 *     45, 46, 48, 73, 82         by the place
 *     56 PLACE                   by the place of the transaction, and by its fault
 *     84 BANK TX                 by the transfer: its originator bank, of 11 characters, and its identification, which is the rest
 *
 * Refusals: 65, 70. */
SCT_CALL SCT_READ sct_outcome sct_site_why(sct_site *site, uint8_t *out, size_t room);

/* The name of a number as the table above has it, such as `Gap`, and its meaning, a text of some words. Both are copied to `out` if they
 * fit into `room` bytes, and their length is returned in both cases. It is 0 for a number that the table does not have. */
SCT_CALL SCT_READ size_t sct_code_name(uint8_t code, uint8_t *out, size_t room);
SCT_CALL SCT_READ size_t sct_code_text(uint8_t code, uint8_t *out, size_t room);

/* ---- the functions of the library, for languages that do not read this header ---- */

sct_outcome sct_raw_open(sct_site *site, uint16_t number, uint16_t group);
sct_outcome sct_raw_restore(sct_site *site, uint16_t number, uint16_t group, const uint8_t *journal, size_t journal_length,
                            const uint8_t *delta, size_t delta_length);
void sct_raw_close(sct_site *site);
sct_taken sct_raw_take(sct_site *site, const uint8_t *json, size_t length);
sct_taken sct_raw_take_as(sct_site *site, const uint8_t *banks, size_t banks_length, const uint8_t *json, size_t length);
sct_lines sct_raw_take_lines(sct_site *site, const uint8_t *text, size_t length);
sct_accepted sct_raw_accept(sct_site *site, const uint8_t *text, size_t length);
sct_outcome sct_raw_snapshot(sct_site *site, sct_site *snapshot);
sct_outcome sct_raw_counts(sct_site *site, uint64_t *counts, size_t items);
sct_outcome sct_raw_vector_text(sct_site *site);
sct_outcome sct_raw_cut(sct_site *site, const uint8_t *vector, size_t length);
sct_outcome sct_raw_cut_above(sct_site *site, const uint64_t *counts, size_t items);
sct_outcome sct_raw_entries(sct_site *site, uint16_t origin, uint64_t above, uint64_t most);
sct_outcome sct_raw_digest(sct_site *site, uint16_t origin, uint64_t count);
sct_outcome sct_raw_digests_text(sct_site *site);
sct_outcome sct_raw_journal_text(sct_site *site, uint64_t above);
sct_outcome sct_raw_newest_text(sct_site *site, uint64_t count);
sct_outcome sct_raw_reading_text(sct_site *site, const uint8_t *text, size_t length);
sct_outcome sct_raw_evaluate(sct_site *site);
sct_outcome sct_raw_archive_text(sct_site *site);
sct_outcome sct_raw_status_text(sct_site *site);
sct_outcome sct_raw_totals_text(sct_site *site);
sct_outcome sct_raw_contradictions_text(sct_site *site);
sct_outcome sct_raw_report(sct_site *site, const uint8_t *bank, size_t bank_length, const uint8_t *day, size_t day_length,
                           const uint8_t *list, size_t list_length);
sct_outcome sct_raw_kept_text(sct_site *site, const uint8_t *day, size_t day_length);
sct_outcome sct_raw_closed_text(sct_site *site, const uint8_t *day, size_t day_length);
sct_outcome sct_raw_transfer_text(sct_site *site, const uint8_t *bank, size_t bank_length, const uint8_t *tx, size_t tx_length);
sct_outcome sct_raw_messages_text(sct_site *site, const uint8_t *bank, size_t bank_length, const uint8_t *tx, size_t tx_length);
sct_outcome sct_raw_bank_totals(sct_site *site, const uint8_t *bank, size_t bank_length);
sct_outcome sct_raw_transfer_text_for(sct_site *site, const uint8_t *banks, size_t banks_length, const uint8_t *bank, size_t bank_length,
                                      const uint8_t *tx, size_t tx_length);
sct_outcome sct_raw_messages_text_for(sct_site *site, const uint8_t *banks, size_t banks_length, const uint8_t *bank, size_t bank_length,
                                      const uint8_t *tx, size_t tx_length);
sct_outcome sct_raw_bank_totals_for(sct_site *site, const uint8_t *banks, size_t banks_length, const uint8_t *bank, size_t bank_length);
sct_outcome sct_raw_report_for(sct_site *site, const uint8_t *banks, size_t banks_length, const uint8_t *bank, size_t bank_length,
                               const uint8_t *day, size_t day_length, const uint8_t *list, size_t list_length);
sct_outcome sct_raw_changes(sct_site *site);
sct_outcome sct_raw_answer(sct_site *site, uint8_t *out, size_t room);
sct_outcome sct_raw_answer_part(sct_site *site, size_t from, uint8_t *out, size_t room);
sct_outcome sct_raw_answer_end(sct_site *site);
sct_outcome sct_raw_why(sct_site *site, uint8_t *out, size_t room);
size_t sct_raw_code_name(uint8_t code, uint8_t *out, size_t room);
size_t sct_raw_code_text(uint8_t code, uint8_t *out, size_t room);

/* ---- the calls above ---- */

static inline const void *sct_private_at(const void *items, size_t length) {
    static const uint64_t nothing = 0;
    return length ? items : &nothing;
}

static inline void *sct_private_room(void *items, size_t length) {
    static uint64_t nothing = 0;
    return length ? items : &nothing;
}

static inline sct_outcome sct_site_open(sct_site *site, uint16_t number, uint16_t group) {
    return sct_raw_open(site, number, group);
}

static inline sct_outcome sct_site_restore(sct_site *site, uint16_t number, uint16_t group, const uint8_t *journal,
                                           size_t journal_length, const uint8_t *delta, size_t delta_length) {
    return sct_raw_restore(site, number, group, (const uint8_t *)sct_private_at(journal, journal_length), journal_length,
                           (const uint8_t *)sct_private_at(delta, delta_length), delta_length);
}

static inline void sct_site_close(sct_site *site) {
    sct_raw_close(site);
}

static inline sct_taken sct_site_take(sct_site *site, const uint8_t *json, size_t length) {
    return sct_raw_take(site, (const uint8_t *)sct_private_at(json, length), length);
}

static inline sct_taken sct_site_take_as(sct_site *site, const uint8_t *banks, size_t banks_length, const uint8_t *json, size_t length) {
    return sct_raw_take_as(site, (const uint8_t *)sct_private_at(banks, banks_length), banks_length,
                           (const uint8_t *)sct_private_at(json, length), length);
}

static inline sct_lines sct_site_take_lines(sct_site *site, const uint8_t *text, size_t length) {
    return sct_raw_take_lines(site, (const uint8_t *)sct_private_at(text, length), length);
}

static inline sct_accepted sct_site_accept(sct_site *site, const uint8_t *text, size_t length) {
    return sct_raw_accept(site, (const uint8_t *)sct_private_at(text, length), length);
}

static inline sct_outcome sct_site_snapshot(sct_site *site, sct_site *snapshot) {
    return sct_raw_snapshot(site, snapshot);
}

static inline sct_outcome sct_site_counts(sct_site *site, uint64_t *counts, size_t items) {
    return sct_raw_counts(site, (uint64_t *)sct_private_room(counts, items), items);
}

static inline sct_outcome sct_site_vector_text(sct_site *site) {
    return sct_raw_vector_text(site);
}

static inline sct_outcome sct_site_cut(sct_site *site, const uint8_t *vector, size_t length) {
    return sct_raw_cut(site, (const uint8_t *)sct_private_at(vector, length), length);
}

static inline sct_outcome sct_site_cut_above(sct_site *site, const uint64_t *counts, size_t items) {
    return sct_raw_cut_above(site, (const uint64_t *)sct_private_at(counts, items), items);
}

static inline sct_outcome sct_site_entries(sct_site *site, uint16_t origin, uint64_t above, uint64_t most) {
    return sct_raw_entries(site, origin, above, most);
}

static inline sct_outcome sct_site_digest(sct_site *site, uint16_t origin, uint64_t count) {
    return sct_raw_digest(site, origin, count);
}

static inline sct_outcome sct_site_digests_text(sct_site *site) {
    return sct_raw_digests_text(site);
}

static inline sct_outcome sct_site_journal_text(sct_site *site, uint64_t above) {
    return sct_raw_journal_text(site, above);
}

static inline sct_outcome sct_site_newest_text(sct_site *site, uint64_t count) {
    return sct_raw_newest_text(site, count);
}

static inline sct_outcome sct_site_reading_text(sct_site *site, const uint8_t *text, size_t length) {
    return sct_raw_reading_text(site, (const uint8_t *)sct_private_at(text, length), length);
}

static inline sct_outcome sct_site_evaluate(sct_site *site) {
    return sct_raw_evaluate(site);
}

static inline sct_outcome sct_site_archive_text(sct_site *site) {
    return sct_raw_archive_text(site);
}

static inline sct_outcome sct_site_status_text(sct_site *site) {
    return sct_raw_status_text(site);
}

static inline sct_outcome sct_site_totals_text(sct_site *site) {
    return sct_raw_totals_text(site);
}

static inline sct_outcome sct_site_contradictions_text(sct_site *site) {
    return sct_raw_contradictions_text(site);
}

static inline sct_outcome sct_site_report(sct_site *site, const uint8_t *bank, size_t bank_length, const uint8_t *day,
                                          size_t day_length, const uint8_t *list, size_t list_length) {
    return sct_raw_report(site, (const uint8_t *)sct_private_at(bank, bank_length), bank_length,
                          (const uint8_t *)sct_private_at(day, day_length), day_length,
                          (const uint8_t *)sct_private_at(list, list_length), list_length);
}

static inline sct_outcome sct_site_kept_text(sct_site *site, const uint8_t *day, size_t day_length) {
    return sct_raw_kept_text(site, (const uint8_t *)sct_private_at(day, day_length), day_length);
}

static inline sct_outcome sct_site_closed_text(sct_site *site, const uint8_t *day, size_t day_length) {
    return sct_raw_closed_text(site, (const uint8_t *)sct_private_at(day, day_length), day_length);
}

static inline sct_outcome sct_site_transfer_text(sct_site *site, const uint8_t *bank, size_t bank_length, const uint8_t *tx,
                                                 size_t tx_length) {
    return sct_raw_transfer_text(site, (const uint8_t *)sct_private_at(bank, bank_length), bank_length,
                                 (const uint8_t *)sct_private_at(tx, tx_length), tx_length);
}

static inline sct_outcome sct_site_messages_text(sct_site *site, const uint8_t *bank, size_t bank_length, const uint8_t *tx,
                                                 size_t tx_length) {
    return sct_raw_messages_text(site, (const uint8_t *)sct_private_at(bank, bank_length), bank_length,
                                 (const uint8_t *)sct_private_at(tx, tx_length), tx_length);
}

static inline sct_outcome sct_site_bank_totals(sct_site *site, const uint8_t *bank, size_t bank_length) {
    return sct_raw_bank_totals(site, (const uint8_t *)sct_private_at(bank, bank_length), bank_length);
}

static inline sct_outcome sct_site_transfer_text_for(sct_site *site, const uint8_t *banks, size_t banks_length, const uint8_t *bank,
                                                     size_t bank_length, const uint8_t *tx, size_t tx_length) {
    return sct_raw_transfer_text_for(site, (const uint8_t *)sct_private_at(banks, banks_length), banks_length,
                                     (const uint8_t *)sct_private_at(bank, bank_length), bank_length,
                                     (const uint8_t *)sct_private_at(tx, tx_length), tx_length);
}

static inline sct_outcome sct_site_messages_text_for(sct_site *site, const uint8_t *banks, size_t banks_length, const uint8_t *bank,
                                                     size_t bank_length, const uint8_t *tx, size_t tx_length) {
    return sct_raw_messages_text_for(site, (const uint8_t *)sct_private_at(banks, banks_length), banks_length,
                                     (const uint8_t *)sct_private_at(bank, bank_length), bank_length,
                                     (const uint8_t *)sct_private_at(tx, tx_length), tx_length);
}

static inline sct_outcome sct_site_bank_totals_for(sct_site *site, const uint8_t *banks, size_t banks_length, const uint8_t *bank,
                                                   size_t bank_length) {
    return sct_raw_bank_totals_for(site, (const uint8_t *)sct_private_at(banks, banks_length), banks_length,
                                   (const uint8_t *)sct_private_at(bank, bank_length), bank_length);
}

static inline sct_outcome sct_site_report_for(sct_site *site, const uint8_t *banks, size_t banks_length, const uint8_t *bank,
                                              size_t bank_length, const uint8_t *day, size_t day_length, const uint8_t *list,
                                              size_t list_length) {
    return sct_raw_report_for(site, (const uint8_t *)sct_private_at(banks, banks_length), banks_length,
                              (const uint8_t *)sct_private_at(bank, bank_length), bank_length,
                              (const uint8_t *)sct_private_at(day, day_length), day_length,
                              (const uint8_t *)sct_private_at(list, list_length), list_length);
}

static inline sct_outcome sct_site_changes(sct_site *site) {
    return sct_raw_changes(site);
}

static inline sct_outcome sct_site_answer(sct_site *site, uint8_t *out, size_t room) {
    return sct_raw_answer(site, (uint8_t *)sct_private_room(out, room), room);
}

static inline sct_outcome sct_site_answer_part(sct_site *site, size_t from, uint8_t *out, size_t room) {
    return sct_raw_answer_part(site, from, (uint8_t *)sct_private_room(out, room), room);
}

static inline sct_outcome sct_site_answer_end(sct_site *site) {
    return sct_raw_answer_end(site);
}

static inline sct_outcome sct_site_why(sct_site *site, uint8_t *out, size_t room) {
    return sct_raw_why(site, (uint8_t *)sct_private_room(out, room), room);
}

static inline size_t sct_code_name(uint8_t code, uint8_t *out, size_t room) {
    return sct_raw_code_name(code, (uint8_t *)sct_private_room(out, room), room);
}

static inline size_t sct_code_text(uint8_t code, uint8_t *out, size_t room) {
    return sct_raw_code_text(code, (uint8_t *)sct_private_room(out, room), room);
}

#ifdef __cplusplus
}
#endif

#if defined(__cplusplus) && __cplusplus >= 201103L
#include <string>

namespace niluppang {

class site_snapshot;

/* What a site and a snapshot of one have in common: a handle, which is closed at the end, and the calls that ask. It can be moved, and
 * not copied. Texts are strings of bytes, and each call is the one of C with its name: its result has to be read. */
class questions {
  public:
    questions(const questions &) = delete;
    questions &operator=(const questions &) = delete;

    /* The handle, for the calls of C. */
    sct_site *get() noexcept { return &handle_; }

    void close() { sct_site_close(&handle_); }

    /* Puts a snapshot into an object that has none. It can be moved to another thread, and is closed by itself. */
    SCT_READ sct_outcome snapshot(site_snapshot &empty);

    SCT_READ sct_outcome counts(uint64_t *counts, size_t items) { return sct_site_counts(&handle_, counts, items); }
    SCT_READ sct_outcome vector_text() { return sct_site_vector_text(&handle_); }
    SCT_READ sct_outcome cut(const std::string &vector) { return sct_site_cut(&handle_, at(vector), vector.size()); }
    SCT_READ sct_outcome cut_above(const uint64_t *counts, size_t items) { return sct_site_cut_above(&handle_, counts, items); }
    SCT_READ sct_outcome entries(uint16_t origin, uint64_t above, uint64_t most) {
        return sct_site_entries(&handle_, origin, above, most);
    }
    SCT_READ sct_outcome digest(uint16_t origin, uint64_t count) { return sct_site_digest(&handle_, origin, count); }
    SCT_READ sct_outcome digests_text() { return sct_site_digests_text(&handle_); }
    SCT_READ sct_outcome journal_text(uint64_t above) { return sct_site_journal_text(&handle_, above); }
    SCT_READ sct_outcome newest_text(uint64_t count) { return sct_site_newest_text(&handle_, count); }
    SCT_READ sct_outcome reading_text(const std::string &text) { return sct_site_reading_text(&handle_, at(text), text.size()); }
    SCT_READ sct_outcome evaluate() { return sct_site_evaluate(&handle_); }
    SCT_READ sct_outcome archive_text() { return sct_site_archive_text(&handle_); }
    SCT_READ sct_outcome status_text() { return sct_site_status_text(&handle_); }
    SCT_READ sct_outcome totals_text() { return sct_site_totals_text(&handle_); }
    SCT_READ sct_outcome contradictions_text() { return sct_site_contradictions_text(&handle_); }
    SCT_READ sct_outcome report(const std::string &bank, const std::string &day, const std::string &list) {
        return sct_site_report(&handle_, at(bank), bank.size(), at(day), day.size(), at(list), list.size());
    }
    SCT_READ sct_outcome kept_text(const std::string &day) { return sct_site_kept_text(&handle_, at(day), day.size()); }
    SCT_READ sct_outcome closed_text(const std::string &day) { return sct_site_closed_text(&handle_, at(day), day.size()); }
    SCT_READ sct_outcome transfer_text(const std::string &bank, const std::string &tx) {
        return sct_site_transfer_text(&handle_, at(bank), bank.size(), at(tx), tx.size());
    }
    SCT_READ sct_outcome messages_text(const std::string &bank, const std::string &tx) {
        return sct_site_messages_text(&handle_, at(bank), bank.size(), at(tx), tx.size());
    }
    SCT_READ sct_outcome bank_totals(const std::string &bank) { return sct_site_bank_totals(&handle_, at(bank), bank.size()); }
    SCT_READ sct_outcome transfer_text_for(const std::string &banks, const std::string &bank, const std::string &tx) {
        return sct_site_transfer_text_for(&handle_, at(banks), banks.size(), at(bank), bank.size(), at(tx), tx.size());
    }
    SCT_READ sct_outcome messages_text_for(const std::string &banks, const std::string &bank, const std::string &tx) {
        return sct_site_messages_text_for(&handle_, at(banks), banks.size(), at(bank), bank.size(), at(tx), tx.size());
    }
    SCT_READ sct_outcome bank_totals_for(const std::string &banks, const std::string &bank) {
        return sct_site_bank_totals_for(&handle_, at(banks), banks.size(), at(bank), bank.size());
    }
    SCT_READ sct_outcome report_for(const std::string &banks, const std::string &bank, const std::string &day, const std::string &list) {
        return sct_site_report_for(&handle_, at(banks), banks.size(), at(bank), bank.size(), at(day), day.size(), at(list), list.size());
    }
    SCT_READ sct_outcome answer_part(size_t from, uint8_t *out, size_t room) {
        return sct_site_answer_part(&handle_, from, out, room);
    }
    SCT_READ sct_outcome answer_end() { return sct_site_answer_end(&handle_); }

    /* The answer. */
    std::string answer() {
        return copied([this](uint8_t *out, size_t room) { return sct_site_answer(&handle_, out, room); });
    }

    /* Why the last call was refused, or an empty text. */
    std::string why() {
        return copied([this](uint8_t *out, size_t room) { return sct_site_why(&handle_, out, room); });
    }

  protected:
    questions() noexcept : handle_ SCT_SITE_EMPTY {}
    ~questions() { sct_site_close(&handle_); }
    questions(questions &&other) noexcept : handle_(other.handle_) { other.handle_ = sct_site SCT_SITE_EMPTY; }
    questions &operator=(questions &&other) noexcept {
        if (this != &other) {
            sct_site_close(&handle_);
            handle_ = other.handle_;
            other.handle_ = sct_site SCT_SITE_EMPTY;
        }
        return *this;
    }

    sct_site handle_;

    static const uint8_t *at(const std::string &text) { return reinterpret_cast<const uint8_t *>(text.data()); }

  private:
    template <typename Copy> static std::string copied(Copy copy) {
        std::string text(copy(nullptr, 0).length, '\0');
        return copy(reinterpret_cast<uint8_t *>(&text[0]), text.size()).ok ? text : std::string();
    }
};

/* What a site held when `snapshot` was called. It is empty before that. */
class site_snapshot : public questions {};

/* A site, which is empty until it is opened or restored. */
class site : public questions {
  public:
    SCT_READ sct_outcome open(uint16_t number, uint16_t group) { return sct_site_open(&handle_, number, group); }
    SCT_READ sct_outcome restore(uint16_t number, uint16_t group, const std::string &journal, const std::string &delta) {
        return sct_site_restore(&handle_, number, group, at(journal), journal.size(), at(delta), delta.size());
    }
    SCT_READ sct_taken take(const std::string &json) { return sct_site_take(&handle_, at(json), json.size()); }
    SCT_READ sct_taken take_as(const std::string &banks, const std::string &json) {
        return sct_site_take_as(&handle_, at(banks), banks.size(), at(json), json.size());
    }
    SCT_READ sct_lines take_lines(const std::string &text) { return sct_site_take_lines(&handle_, at(text), text.size()); }
    SCT_READ sct_accepted accept(const std::string &text) { return sct_site_accept(&handle_, at(text), text.size()); }
    SCT_READ sct_outcome changes() { return sct_site_changes(&handle_); }
};

inline sct_outcome questions::snapshot(site_snapshot &empty) { return sct_site_snapshot(&handle_, empty.get()); }

}  // namespace niluppang
#endif

#endif
