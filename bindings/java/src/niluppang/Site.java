package niluppang;

import com.sun.jna.Memory;
import java.nio.charset.StandardCharsets;
import java.util.ArrayList;
import java.util.List;
import java.util.function.Function;

/**
 * A site of a hub: it holds the messages that it took and those that it accepted from other sites, and answers about them.
 *
 * <pre>
 * try (Site site = new Site(1, 3)) {
 *     site.take(message);
 *     System.out.write(site.statusText());
 * }
 * </pre>
 *
 * Texts are bytes in UTF-8, as the library has them. Several threads may use one site: one call at a time is in it. A refused call throws
 * {@link NiluppangException}, and changed nothing. The variable NILUPPANG_LIBRARY, or the property niluppang.library, may name the library.
 *
 * A long question goes to a {@link #snapshot}, and the site goes on meanwhile.
 */
public final class Site extends Questions {
    private final byte[] refused;

    /** What a take came to. The number is that of the message among the site's own, from 1, or 0 if the site held it already. */
    public record Taken(boolean isRepeat, long number) {
    }

    /** What taking many lines came to. The text has a line for each refused line, such as {@code line 8: 36 InstgAgt 1}. */
    public record LinesTaken(long fresh, long repeats, long refused, byte[] refusedText) {
    }

    /** The name of a transfer: its originator bank (a BIC of 11 characters) and its identification. */
    public record Transfer(String bank, String tx) {
    }

    /** Opens site {@code number} of a group of {@code group} sites, both 1 to 1024. It holds nothing. Refusals: 44, 65. */
    public Site(int number, int group) {
        this(number, group, handle -> Library.sct_raw_open(handle, (short) number, (short) group));
    }

    private Site(int number, int group, Function<Memory, Library.Outcome> begin) {
        super(number, group);
        refused = copied(checked(begin.apply(handle)).length);
    }

    /**
     * A site that was there before. The journal is the messages that it took, one JSON object a line, in the order in which it took them.
     * The delta is a cut that it kept or that a peer made. What is refused of the two is left out, and {@link #refusedText} has it.
     * Without a delta, it is empty. Refusals: 44, 65.
     */
    public static Site restore(int number, int group, byte[] journal, byte[] delta) {
        return new Site(number, group, handle -> Library.sct_raw_restore(handle, (short) number, (short) group, given(journal),
            journal.length, given(delta), delta.length));
    }

    /** The version of the library, such as 0.3.0. */
    public static String libraryVersion() {
        return version(Library.sct_version());
    }

    static String version(int number) {
        return number / 1000000 + "." + number / 1000 % 1000 + "." + number % 1000;
    }

    /** A line for each line of the journal that was refused at the restore, and one for the delta. Empty if nothing was refused. */
    public byte[] refusedText() {
        return refused.clone();
    }

    // ---- messages and deltas in

    /** Takes the message that one JSON object is. Refusals: 31 to 38, 46, 56, 65, 70. */
    public synchronized Taken take(byte[] json) {
        return taken(Library.sct_raw_take(handle, given(json), json.length));
    }

    public Taken take(String json) {
        return take(bytes(json));
    }

    /**
     * As {@link #take}, if the message may be sent in the name of some banks: a text such as {@code BANKDEFF,BANQFRPP}, of 1 to 16. They
     * are the banks for which a client stands.
     *
     * It is refused if the sender is none of them (81); if a pacs.008, camt.056 or pacs.028 is not of their own transfers (82, with the
     * place of the transaction); or if a pacs.002, pacs.004 or camt.029 is not on a transfer to one of them (83). If no instruction on
     * its transfer is held yet (84), it can be sent again, and {@link NiluppangException#waitsFor} has the transfer.
     * Refusals: 31 to 38, 46, 56, 65, 70, 73 (1: the banks), 81 to 84.
     */
    public synchronized Taken takeAs(String banks, byte[] json) {
        byte[] some = bytes(banks);
        return taken(Library.sct_raw_take_as(handle, given(some), some.length, given(json), json.length));
    }

    public Taken takeAs(String banks, String json) {
        return takeAs(banks, bytes(json));
    }

    /** Takes the messages of a text, one JSON object a line. {@link #journal} has those that are new. Refusals: 65, after which it can be
     * taken again, and 70. */
    public synchronized LinesTaken takeLines(byte[] text) {
        Library.LinesOutcome done = Library.sct_raw_take_lines(handle, given(text), text.length);
        check(done.ok, done.code, done.place);
        answers++;
        return new LinesTaken(done.fresh, done.repeats, done.refused, copied(done.length));
    }

    /** Accepts a delta text, whole or not at all. The result is how many of its entries are new: {@link #newest} has them.
     * Refusals: 41 to 45, 65, 70. */
    public synchronized long accept(byte[] delta) {
        Library.AcceptedOutcome done = Library.sct_raw_accept(handle, given(delta), delta.length);
        check(done.ok, done.code, done.place);
        return done.fresh;
    }

    // ---- what changed

    /** The transfers whose lines may have changed since the call before. The first call begins the watch, and returns none.
     * Refusals: 65, 70. */
    public List<Transfer> changes() {
        List<Transfer> found = new ArrayList<>();
        String text = new String(answered(() -> Library.sct_raw_changes(handle)), StandardCharsets.UTF_8);
        for (String line : text.isEmpty() ? new String[0] : text.split("\n")) {
            int bar = line.indexOf('|');
            found.add(new Transfer(line.substring(0, bar), line.substring(bar + 1)));
        }
        return found;
    }

    private Taken taken(Library.TakenOutcome done) {
        check(done.ok, done.code, done.place);
        return new Taken(done.isRepeat != 0, done.isRepeat != 0 ? 0 : done.number);
    }
}
