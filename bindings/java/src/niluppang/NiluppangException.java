package niluppang;

import java.util.Optional;

/**
 * A call was refused, and changed nothing. {@link #number()} says why (docs/users/codes.md has a remedy), and {@link #place()} is the
 * line, the record, the transaction or the argument that is wrong, from 1, or 0 if the number has no place. {@link #reason()} is what the
 * program prints, such as {@code 36 InstgAgt 1}. It is empty if there is no site to ask: it was not opened, or is closed. It is also empty
 * if the call was not made.
 */
public final class NiluppangException extends RuntimeException {
    private static final long serialVersionUID = 2L;
    private static final int WAITS = 84;

    private final int number;
    private final long place;
    private final String reason;
    private final String name;
    private final String meaning;

    NiluppangException(int number, long place, String reason) {
        this(number, place, reason, Library.name(number), Library.meaning(number));
    }

    private NiluppangException(int number, long place, String reason, String name, String meaning) {
        super(number + " " + name + ": " + meaning + more(number, place, reason));
        this.number = number;
        this.place = place;
        this.reason = reason;
        this.name = name;
        this.meaning = meaning;
    }

    private static String more(int number, long place, String reason) {
        if (reason.isEmpty() || reason.equals(Integer.toString(number))) {
            return place == 0 ? "" : " (place " + Long.toUnsignedString(place) + ")";
        }
        return " (" + reason + ")";
    }

    public int number() {
        return number;
    }

    public String name() {
        return name;
    }

    public String meaning() {
        return meaning;
    }

    public long place() {
        return place;
    }

    public String reason() {
        return reason;
    }

    /** The transfer whose instruction a message waits for, if the number is 84. Empty with every other number and reason. */
    public Optional<Site.Transfer> waitsFor() {
        String[] words = reason.split(" ", 3);
        return number == WAITS && words.length == 3 ? Optional.of(new Site.Transfer(words[1], words[2])) : Optional.empty();
    }
}
