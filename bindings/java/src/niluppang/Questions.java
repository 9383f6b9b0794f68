package niluppang;

import com.sun.jna.Memory;
import java.io.IOException;
import java.io.InputStream;
import java.lang.ref.Cleaner;
import java.nio.charset.StandardCharsets;
import java.util.Arrays;
import java.util.Objects;
import java.util.function.Supplier;

/**
 * What a {@link Site} and a {@link Snapshot} of one are asked.
 *
 * Texts are bytes in UTF-8, as the library has them. Several threads may use one object: one call at a time is in it. A refused call throws
 * {@link NiluppangException}, and changed nothing.
 */
public abstract sealed class Questions implements AutoCloseable permits Site, Snapshot {
    private static final int MEMORY = 65;
    private static final int BAD_SITE = 44;
    private static final int BAD_VECTOR = 72;
    private static final int BAD_ARGUMENT = 73;
    private static final int PART = 1 << 16;
    private static final byte[] NOTHING = new byte[1];
    private static final long[] NO_COUNTS = new long[1];
    private static final Cleaner CLEANER = Cleaner.create();

    private final int number;
    private final int group;
    final Memory handle = new Memory(Library.HANDLE_BYTES);
    private final Cleaner.Cleanable end;
    long answers;
    private volatile boolean isClosed;

    /** Has an empty handle, for a call that puts a site or a snapshot into it. */
    Questions(int number, int group) {
        if (number < 0 || number > 0xffff || group < 0 || group > 0xffff) {
            throw new NiluppangException(BAD_SITE, 0, "");
        }
        this.number = number;
        this.group = group;
        handle.clear();
        Memory its = handle;
        end = CLEANER.register(this, () -> Library.sct_raw_close(its));
    }

    public int number() {
        return number;
    }

    public int group() {
        return group;
    }

    /** Ends the site, and frees its memory. Each later call is refused by 70, but for another close. It waits for a call that runs. */
    @Override
    public synchronized void close() {
        end.clean();
        isClosed = true;
    }

    /** Whether the site is closed. The answer comes at once, also while another thread makes a call. */
    public boolean isClosed() {
        return isClosed;
    }

    // ---- a snapshot, and what a text says

    /**
     * What is held now, to be asked while the site goes on, also in another thread. It is made at once, of any number of messages, and is
     * closed by itself, before the site or after it. Its first question goes through everything, and later ones do not.
     * Refusals: 65, 70.
     */
    public synchronized Snapshot snapshot() {
        return new Snapshot(this);
    }

    /**
     * What the site reads in a text of messages, one JSON object a line. It takes none of them. The answer has a line for each line that
     * is not blank: the message as the archive text has it, which begins with <code>{</code>, or why it is refused, such as
     * {@code line 8: 36 InstgAgt 1}. Refusals: 65, 70.
     */
    public byte[] reading(byte[] text) {
        return answered(() -> Library.sct_raw_reading_text(handle, given(text), text.length));
    }

    // ---- what the site holds, and deltas out

    /** How many messages of site 1, 2, .. of the group this site holds: its version vector. Refusals: 65 (a snapshot's first question),
     * 70. */
    public synchronized long[] counts() {
        long[] counts = new long[group];
        checked(Library.sct_raw_counts(handle, counts, group));
        return counts;
    }

    /** The version vector as text, such as {@code 1:20,3:7}, or {@code -} if nothing is held. Refusals: 65, 70. */
    public byte[] vectorText() {
        return answered(() -> Library.sct_raw_vector_text(handle));
    }

    /** The delta of what the site holds above a version vector of text. Refusals: 65, 70, 72. */
    public byte[] cut(String vector) {
        byte[] text = bytes(vector);
        return answered(() -> Library.sct_raw_cut(handle, given(text), text.length));
    }

    /** A cut as a stream, as that of {@link #archiveStream}. */
    public InputStream cutStream(String vector) {
        byte[] text = bytes(vector);
        return streamed(() -> Library.sct_raw_cut(handle, given(text), text.length));
    }

    /** The delta of what the site holds above counts of site 1, 2, .. A site after the last count counts 0.
     * Refusals: 44, 65, 70, 72 (a count below 0). */
    public byte[] cutAbove(long... counts) {
        if (Arrays.stream(counts).anyMatch(count -> count < 0)) {
            throw new NiluppangException(BAD_VECTOR, 0, "");
        }
        return answered(() -> Library.sct_raw_cut_above(handle, counts.length == 0 ? NO_COUNTS : counts, counts.length));
    }

    /**
     * The delta of the messages of one site that are numbered above a count: as many as a text of {@code most} bytes has room for, and at
     * least one if there is one. The origin is 1 to 1024, and {@code most} is 1 to 67108863.
     *
     * A site that asks so again and again, each time above what it holds, has all when a text without a message comes.
     * Refusals: 65, 70, 73 (1: the origin, 2: the count, 3: the bytes).
     */
    public byte[] entries(int origin, long above, long most) {
        if (origin < 0 || origin > 0xFFFF || above < 0) {
            throw new NiluppangException(BAD_ARGUMENT, origin < 0 || origin > 0xFFFF ? 1 : 2, "");
        }
        return answered(() -> Library.sct_raw_entries(handle, (short) origin, above, most));
    }

    /**
     * The digest of the first messages of one site, as 64 small hexadecimal digits. The origin is 1 to 1024.
     *
     * Two sites with one digest of a count hold the same messages up to it: the header niluppang.h defines it.
     * Refusals: 65, 70, 73 (1: the origin, 2: the count is below 0, or above what the site holds).
     */
    public byte[] digest(int origin, long count) {
        if (origin < 0 || origin > 0xFFFF || count < 0) {
            throw new NiluppangException(BAD_ARGUMENT, origin < 0 || origin > 0xFFFF ? 1 : 2, "");
        }
        return answered(() -> Library.sct_raw_digest(handle, (short) origin, count));
    }

    /** A line such as {@code 3:7:05c1..} for each site of which this one holds messages, ascending: its number, how many messages of it are
     * held, and the digest of all of them. Two sites with equal texts hold the same messages. Refusals: 65, 70. */
    public byte[] digestsText() {
        return answered(() -> Library.sct_raw_digests_text(handle));
    }

    /** The site's own messages that are numbered above a count, each on a line of the archive text: what a journal lacks that has so many
     * lines. Refusals: 65, 70. */
    public byte[] journal(long above) {
        long from = atLeastNone(above);
        return answered(() -> Library.sct_raw_journal_text(handle, from));
    }

    /** The text of {@link #journal} as a stream, as that of {@link #archiveStream}. */
    public InputStream journalStream(long above) {
        long from = atLeastNone(above);
        return streamed(() -> Library.sct_raw_journal_text(handle, from));
    }

    /** The messages that came last, at most so many, each on a line of the archive text, in the order in which they came. After an accept
     * of n entries the newest n messages are those. Refusals: 65, 70. */
    public byte[] newest(long count) {
        long many = atLeastNone(count);
        return answered(() -> Library.sct_raw_newest_text(handle, many));
    }

    // ---- answers on everything held

    /** Evaluates what is new, so that the next question does not have to. Each answer is what it is without this call, and the answer
     * that the site keeps stays. Refusals: 65, 70. */
    public synchronized void evaluate() {
        checked(Library.sct_raw_evaluate(handle));
    }

    /** The archive text: each message held on a line. Refusals: 65, 70. */
    public byte[] archiveText() {
        return answered(() -> Library.sct_raw_archive_text(handle));
    }

    /**
     * The archive text as a stream, which is read in parts: no second copy of the text is made, and it may have more than 2 GiB.
     *
     * The answer is made by this call, and is the answer of the site then. A take or an accept while it is read does not change it. After a
     * call that makes another answer, a read fails by IOException, and after a close by 70. Refusals: 65, 70.
     */
    public InputStream archiveStream() {
        return streamed(() -> Library.sct_raw_archive_text(handle));
    }

    /** The status text: T, F and R lines of each transfer. Refusals: 65, 70. */
    public byte[] statusText() {
        return answered(() -> Library.sct_raw_status_text(handle));
    }

    /** The status text as a stream, as that of {@link #archiveStream}. */
    public InputStream statusStream() {
        return streamed(() -> Library.sct_raw_status_text(handle));
    }

    /** The totals text: a line for each bank. Refusals: 65, 70. */
    public byte[] totalsText() {
        return answered(() -> Library.sct_raw_totals_text(handle));
    }

    /** A line for each identity that two different messages have, such as {@code BANKDEFFXXX|pacs.008|M1}. Refusals: 65, 70. */
    public byte[] contradictionsText() {
        return answered(() -> Library.sct_raw_contradictions_text(handle));
    }

    /** The report on a bank's list for a settlement day, YYYY-MM-DD. Refusals: 48, 65, 70, 73 (1: the bank, 2: the day). */
    public byte[] report(String bank, String day, byte[] list) {
        byte[] one = bytes(bank);
        byte[] two = bytes(day);
        return answered(() -> Library.sct_raw_report(handle, given(one), one.length, given(two), two.length, given(list), list.length));
    }

    /** The lines of the archive text that are kept on a day, YYYY-MM-DD: the messages on transfers that are not done before it, and all
     * that have an identity or a transfer in common with one that is kept. Refusals: 65, 70, 73 (1). */
    public byte[] keptText(String day) {
        byte[] one = bytes(day);
        return answered(() -> Library.sct_raw_kept_text(handle, given(one), one.length));
    }

    /** The lines of the archive text that are closed on a day: those that are not kept. Refusals: 65, 70, 73 (1). */
    public byte[] closedText(String day) {
        byte[] one = bytes(day);
        return answered(() -> Library.sct_raw_closed_text(handle, given(one), one.length));
    }

    // ---- answers on one transfer or bank

    /** The T, F and R lines of one transfer. Refusals: 65, 70, 73 (1: the bank, 2: the identification). */
    public byte[] transfer(String bank, String tx) {
        byte[] one = bytes(bank);
        byte[] two = bytes(tx);
        return answered(() -> Library.sct_raw_transfer_text(handle, given(one), one.length, given(two), two.length));
    }

    /** The lines of the archive text that have the messages on one transfer. Refusals: 65, 70, 73 (1, 2). */
    public byte[] messages(String bank, String tx) {
        byte[] one = bytes(bank);
        byte[] two = bytes(tx);
        return answered(() -> Library.sct_raw_messages_text(handle, given(one), one.length, given(two), two.length));
    }

    /** The line of one bank in the totals text, also if all its numbers are 0. Refusals: 65, 70, 73 (1). */
    public byte[] bankTotals(String bank) {
        byte[] one = bytes(bank);
        return answered(() -> Library.sct_raw_bank_totals(handle, given(one), one.length));
    }

    // ---- the same for banks, which see no transfer of others
    //
    // The banks are a text as that of takeAs. A transfer is theirs if its originator bank is one of them, or the beneficiary bank of an
    // instruction on it; without an instruction if one of them sent a message on it, or was sent one

    /** The T, F and R lines of one transfer. One that is not theirs has the line of a transfer without messages.
     * Refusals: 65, 70, 73 (1: the banks, 2: the bank, 3: the identification). */
    public byte[] transferFor(String banks, String bank, String tx) {
        byte[] some = bytes(banks);
        byte[] one = bytes(bank);
        byte[] two = bytes(tx);
        return answered(() -> Library.sct_raw_transfer_text_for(handle, given(some), some.length, given(one), one.length, given(two),
            two.length));
    }

    /** The lines of the archive text that have the messages on one transfer, and none if it is not theirs. A recall of others has those of
     * its transactions alone that are on transfers of theirs. Refusals: 65, 70, 73 (1, 2, 3). */
    public byte[] messagesFor(String banks, String bank, String tx) {
        byte[] some = bytes(banks);
        byte[] one = bytes(bank);
        byte[] two = bytes(tx);
        return answered(() -> Library.sct_raw_messages_text_for(handle, given(some), some.length, given(one), one.length, given(two),
            two.length));
    }

    /** The line of one of the banks in the totals text. Refusals: 65, 70, 73 (1, 2), 79. */
    public byte[] bankTotalsFor(String banks, String bank) {
        byte[] some = bytes(banks);
        byte[] one = bytes(bank);
        return answered(() -> Library.sct_raw_bank_totals_for(handle, given(some), some.length, given(one), one.length));
    }

    /** The report on a list of one of the banks for a settlement day. A row on a transfer that is not theirs is as one on a transfer without
     * messages. Refusals: 48, 65, 70, 73 (1: the banks, 2: the bank, 3: the day), 79. */
    public byte[] reportFor(String banks, String bank, String day, byte[] list) {
        byte[] some = bytes(banks);
        byte[] one = bytes(bank);
        byte[] two = bytes(day);
        return answered(() -> Library.sct_raw_report_for(handle, given(some), some.length, given(one), one.length, given(two), two.length,
            given(list), list.length));
    }

    // ---- the answer

    /** The text that was made last, once more. Refusal: 70. */
    public synchronized byte[] answer() {
        return copied(checked(Library.sct_raw_answer(handle, NOTHING, 0)).length);
    }

    /** Frees the memory of the text that was made last. {@link #answer} is empty then. Refusal: 70. */
    public synchronized void answerEnd() {
        checked(Library.sct_raw_answer_end(handle));
        answers++;
    }

    /** An answer, which is read in parts. */
    private final class Parts extends InputStream {
        private final long its = answers;
        private long from;

        @Override
        public int read() throws IOException {
            byte[] one = new byte[1];
            return read(one, 0, 1) < 0 ? -1 : Byte.toUnsignedInt(one[0]);
        }

        @Override
        public int read(byte[] out, int place, int many) throws IOException {
            Objects.checkFromIndexSize(place, many, out.length);
            byte[] part = new byte[Math.min(many, PART)];
            if (part.length == 0) {
                return 0;
            }
            int length = part(its, from, part);
            System.arraycopy(part, 0, out, place, length);
            from += length;
            return length == 0 ? -1 : length;
        }
    }

    private synchronized int part(long answer, long from, byte[] out) throws IOException {
        int length = (int) checked(Library.sct_raw_answer_part(handle, from, out, out.length)).length;
        if (answer != answers) {
            throw new IOException("a call made another answer while this one was read");
        }
        return length;
    }

    // ---- what each call does

    /** A text as an argument. An array without an item has no address that the library may be given. */
    static byte[] given(byte[] text) {
        return text.length == 0 ? NOTHING : text;
    }

    static byte[] bytes(String text) {
        return text.getBytes(StandardCharsets.UTF_8);
    }

    private static long atLeastNone(long count) {
        if (count < 0) {
            throw new IllegalArgumentException("a number of messages is not below 0, as " + count + " is");
        }
        return count;
    }

    final void check(byte ok, byte code, long place) {
        if (ok == 0) {
            throw new NiluppangException(Byte.toUnsignedInt(code), place, why());
        }
    }

    /** Why the last call was refused. Nothing if there is no site, or no memory for the text. */
    private String why() {
        return Library.text((out, room) -> Library.sct_raw_why(handle, out, room).length);
    }

    final Library.Outcome checked(Library.Outcome done) {
        check(done.ok, done.code, done.place);
        return done;
    }

    final synchronized byte[] answered(Supplier<Library.Outcome> call) {
        long length = checked(call.get()).length;
        answers++;
        return copied(length);
    }

    private synchronized InputStream streamed(Supplier<Library.Outcome> call) {
        checked(call.get());
        answers++;
        return new Parts();
    }

    /** The answer, whose length is known. An array of Java has less than 2 GiB. */
    final byte[] copied(long length) {
        if (length > Integer.MAX_VALUE - 8) {
            throw new NiluppangException(MEMORY, 0, "");
        }
        byte[] answer = new byte[(int) length];
        checked(Library.sct_raw_answer(handle, given(answer), length));
        return answer;
    }
}
