package niluppang;

import com.sun.jna.Native;
import com.sun.jna.Pointer;
import com.sun.jna.Structure;
import com.sun.jna.Structure.FieldOrder;
import java.nio.charset.StandardCharsets;

/** The functions of libniluppang.so, as include/niluppang.h declares them. A bool of C is one byte, and a handle is 16. */
final class Library {
    static final int HANDLE_BYTES = 16;
    private static final int MAJOR = 0;
    private static final int MINOR = 3;
    private static final int NUMBERS = 256;
    private static final String[] NAMES = new String[NUMBERS];
    private static final String[] MEANINGS = new String[NUMBERS];

    static {
        String property = System.getProperty("niluppang.library");
        String named = property != null ? property : System.getenv("NILUPPANG_LIBRARY");
        Native.register(Library.class, named != null && !named.isEmpty() ? named : "niluppang");
        int version = sct_version();
        if (version / 1000000 != MAJOR || version / 1000 % 1000 != MINOR) {
            throw new UnsatisfiedLinkError("the library has version " + Site.version(version) + ", and this package is for " + MAJOR + "."
                + MINOR);
        }
        for (int number = 0; number < NUMBERS; number++) {
            byte code = (byte) number;
            NAMES[number] = text((out, room) -> sct_raw_code_name(code, out, room));
            MEANINGS[number] = text((out, room) -> sct_raw_code_text(code, out, room));
        }
    }

    /** A function that copies a text to an array if it fits, and returns its length in both cases. It returns 0 if it is refused. */
    interface Copying {
        long copy(byte[] out, long room);
    }

    @FieldOrder({"ok", "code", "place", "length", "reserved"})
    public static class Outcome extends Structure implements Structure.ByValue {
        public byte ok;
        public byte code;
        public long place;
        public long length;
        public long reserved;
    }

    @FieldOrder({"ok", "code", "isRepeat", "place", "number", "reserved"})
    public static class TakenOutcome extends Structure implements Structure.ByValue {
        public byte ok;
        public byte code;
        public byte isRepeat;
        public long place;
        public long number;
        public long reserved;
    }

    @FieldOrder({"ok", "code", "place", "fresh", "repeats", "refused", "length", "reserved"})
    public static class LinesOutcome extends Structure implements Structure.ByValue {
        public byte ok;
        public byte code;
        public long place;
        public long fresh;
        public long repeats;
        public long refused;
        public long length;
        public long reserved;
    }

    @FieldOrder({"ok", "code", "place", "fresh", "reserved"})
    public static class AcceptedOutcome extends Structure implements Structure.ByValue {
        public byte ok;
        public byte code;
        public long place;
        public long fresh;
        public long reserved;
    }

    /** The text that a function copies. The library is never given an array without an item. */
    static String text(Copying function) {
        int length = (int) function.copy(new byte[1], 0);
        byte[] text = new byte[length + 1];
        return new String(text, 0, (int) function.copy(text, length), StandardCharsets.UTF_8);
    }

    /** The name of a number. */
    static String name(int number) {
        return NAMES[number].isEmpty() ? "Unknown" : NAMES[number];
    }

    /** The meaning of a number, in some words. */
    static String meaning(int number) {
        return MEANINGS[number].isEmpty() ? "a number of a later version" : MEANINGS[number];
    }

    static native int sct_version();

    static native Outcome sct_raw_open(Pointer site, short number, short group);

    static native Outcome sct_raw_restore(Pointer site, short number, short group, byte[] journal, long journalLength, byte[] delta,
                                          long deltaLength);

    static native void sct_raw_close(Pointer site);

    static native TakenOutcome sct_raw_take(Pointer site, byte[] json, long length);

    static native TakenOutcome sct_raw_take_as(Pointer site, byte[] banks, long banksLength, byte[] json, long length);

    static native LinesOutcome sct_raw_take_lines(Pointer site, byte[] text, long length);

    static native AcceptedOutcome sct_raw_accept(Pointer site, byte[] text, long length);

    static native Outcome sct_raw_snapshot(Pointer site, Pointer snapshot);

    static native Outcome sct_raw_counts(Pointer site, long[] counts, long items);

    static native Outcome sct_raw_vector_text(Pointer site);

    static native Outcome sct_raw_cut(Pointer site, byte[] vector, long length);

    static native Outcome sct_raw_cut_above(Pointer site, long[] counts, long items);

    static native Outcome sct_raw_entries(Pointer site, short origin, long above, long most);

    static native Outcome sct_raw_digest(Pointer site, short origin, long count);

    static native Outcome sct_raw_digests_text(Pointer site);

    static native Outcome sct_raw_journal_text(Pointer site, long above);

    static native Outcome sct_raw_newest_text(Pointer site, long count);

    static native Outcome sct_raw_reading_text(Pointer site, byte[] text, long length);

    static native Outcome sct_raw_evaluate(Pointer site);

    static native Outcome sct_raw_archive_text(Pointer site);

    static native Outcome sct_raw_status_text(Pointer site);

    static native Outcome sct_raw_totals_text(Pointer site);

    static native Outcome sct_raw_contradictions_text(Pointer site);

    static native Outcome sct_raw_report(Pointer site, byte[] bank, long bankLength, byte[] day, long dayLength, byte[] list,
                                         long listLength);

    static native Outcome sct_raw_kept_text(Pointer site, byte[] day, long dayLength);

    static native Outcome sct_raw_closed_text(Pointer site, byte[] day, long dayLength);

    static native Outcome sct_raw_transfer_text(Pointer site, byte[] bank, long bankLength, byte[] tx, long txLength);

    static native Outcome sct_raw_messages_text(Pointer site, byte[] bank, long bankLength, byte[] tx, long txLength);

    static native Outcome sct_raw_bank_totals(Pointer site, byte[] bank, long bankLength);

    static native Outcome sct_raw_transfer_text_for(Pointer site, byte[] banks, long banksLength, byte[] bank, long bankLength, byte[] tx,
                                                    long txLength);

    static native Outcome sct_raw_messages_text_for(Pointer site, byte[] banks, long banksLength, byte[] bank, long bankLength, byte[] tx,
                                                    long txLength);

    static native Outcome sct_raw_bank_totals_for(Pointer site, byte[] banks, long banksLength, byte[] bank, long bankLength);

    static native Outcome sct_raw_report_for(Pointer site, byte[] banks, long banksLength, byte[] bank, long bankLength, byte[] day,
                                             long dayLength, byte[] list, long listLength);

    static native Outcome sct_raw_changes(Pointer site);

    static native Outcome sct_raw_answer(Pointer site, byte[] out, long room);

    static native Outcome sct_raw_answer_part(Pointer site, long from, byte[] out, long room);

    static native Outcome sct_raw_answer_end(Pointer site);

    static native Outcome sct_raw_why(Pointer site, byte[] out, long room);

    static native long sct_raw_code_name(byte code, byte[] out, long room);

    static native long sct_raw_code_text(byte code, byte[] out, long room);

    private Library() {
    }
}
