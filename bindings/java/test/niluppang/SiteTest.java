package niluppang;

import java.io.ByteArrayOutputStream;
import java.io.IOException;
import java.io.InputStream;
import java.nio.charset.StandardCharsets;
import java.nio.file.Files;
import java.nio.file.Path;
import java.security.MessageDigest;
import java.security.NoSuchAlgorithmException;
import java.util.ArrayList;
import java.util.Arrays;
import java.util.List;
import java.util.Map;
import java.util.Optional;
import java.util.Set;
import java.util.TreeMap;
import java.util.TreeSet;
import java.util.concurrent.CountDownLatch;
import java.util.concurrent.TimeUnit;
import java.util.function.Consumer;
import java.util.regex.Matcher;
import java.util.regex.Pattern;

/** Compares what sites answer with the texts of examples/ and with the header, byte for byte. The folder is the only argument. */
public final class SiteTest {
    private static final String[] EXAMPLES = {"bank-day", "hub-morning", "recall-batch", "refusals", "settlement-day"};
    private static final String BODY = "\"CreDtTm\":\"2024-05-02T10:00:00Z\",\"InstgAgt\":\"BANKDEFF\",\"IntrBkSttlmDt\":\"2024-05-02\","
        + "\"SvcLvl\":\"SEPA\",\"LclInstrm\":\"INST\",\"EndToEndId\":\"E1\",\"IntrBkSttlmAmt\":\"1.00\",\"Ccy\":\"EUR\","
        + "\"ChrgBr\":\"SLEV\",\"Dbtr\":\"Jürgen Größler\",\"DbtrAcct\":\"DE89370400440532013000\",\"DbtrAgt\":\"BANKDEFF\","
        + "\"CdtrAgt\":\"BANQFRPP\",\"Cdtr\":\"Bo Maes\",\"CdtrAcct\":\"BE68539007547034\"";
    private static final String RECALLED = "{\"CxlId\":\"R1\",\"OrgnlMsgId\":\"M1\",\"OrgnlMsgNmId\":\"pacs.008\",\"OrgnlTxId\":\"T1\","
        + "\"OrgnlIntrBkSttlmAmt\":\"1.00\",\"Ccy\":\"EUR\",\"Rsn\":\"FRAD\",\"DbtrAgt\":\"BANKDEFF\"}";
    private static final Set<Integer> MET = new TreeSet<>();
    private static Map<Integer, String[]> table = new TreeMap<>();
    private static int passed;
    private static int failed;

    // ---- what the checks share

    private static void is(String name, boolean right) {
        System.out.println(name + ": " + (right ? "ok" : "DIFFERS"));
        passed += right ? 1 : 0;
        failed += right ? 0 : 1;
    }

    private static void same(String name, byte[] found, byte[] right) {
        is(name, Arrays.equals(found, right));
    }

    private static void same(String name, byte[] found, String right) {
        same(name, found, bytes(right));
    }

    private static String string(byte[] text) {
        return new String(text, StandardCharsets.UTF_8);
    }

    private static byte[] bytes(String text) {
        return text.getBytes(StandardCharsets.UTF_8);
    }

    /** A call that may fail. */
    interface Call {
        void run() throws IOException;
    }

    /** How a call fails, or null. */
    private static Exception failure(Call call) {
        try {
            call.run();
            return null;
        } catch (IOException | RuntimeException fault) {
            return fault;
        }
    }

    /** A call must be refused by a number, a place and a reason, with the name and the meaning of the header. */
    private static void refused(String name, int number, long place, String reason, Call call) {
        MET.add(number);
        String[] words = table.get(number);
        is(reason.isEmpty() ? name : name + ": " + reason, failure(call) instanceof NiluppangException fault && fault.number() == number
            && fault.place() == place && fault.reason().equals(reason) && fault.name().equals(words[0]) && fault.meaning().equals(words[1])
            && fault.getMessage().startsWith(number + " " + words[0] + ": " + words[1]) && fault.getMessage().contains(reason));
    }

    /** The lines of a text, each without its line feed. */
    private static List<byte[]> lines(byte[] text) {
        List<byte[]> found = new ArrayList<>();
        int begin = 0;
        for (int at = 0; at <= text.length; at++) {
            if (at == text.length ? begin < at : text[at] == '\n') {
                found.add(Arrays.copyOfRange(text, begin, at));
                begin = at + 1;
            }
        }
        return found;
    }

    private static String instruction(int number, String more) {
        return "{\"MsgNmId\":\"pacs.008\",\"MsgId\":\"M" + number + "\",\"TxId\":\"T" + number + "\"," + BODY + more + "}";
    }

    private static String instruction(int number) {
        return instruction(number, "");
    }

    /** The line of the archive text of an instruction: keys ascend, and a bank has 11 characters. */
    private static String archived(int number) {
        return "{\"Ccy\":\"EUR\",\"Cdtr\":\"Bo Maes\",\"CdtrAcct\":\"BE68539007547034\",\"CdtrAgt\":\"BANQFRPPXXX\",\"ChrgBr\":\"SLEV\","
            + "\"CreDtTm\":\"2024-05-02T10:00:00Z\",\"Dbtr\":\"Jürgen Größler\",\"DbtrAcct\":\"DE89370400440532013000\","
            + "\"DbtrAgt\":\"BANKDEFFXXX\",\"EndToEndId\":\"E1\",\"InstgAgt\":\"BANKDEFFXXX\",\"IntrBkSttlmAmt\":\"1.00\","
            + "\"IntrBkSttlmDt\":\"2024-05-02\",\"LclInstrm\":\"INST\",\"MsgId\":\"M" + number + "\",\"MsgNmId\":\"pacs.008\","
            + "\"SvcLvl\":\"SEPA\",\"TxId\":\"T" + number + "\"}\n";
    }

    /** The confirmation of the instruction with this number by a bank. */
    private static String confirmation(int number, String bank) {
        return "{\"MsgNmId\":\"pacs.002\",\"MsgId\":\"C" + number + "\",\"CreDtTm\":\"2024-05-02T10:00:02Z\",\"InstgAgt\":\"" + bank
            + "\",\"OrgnlMsgId\":\"M" + number + "\",\"OrgnlMsgNmId\":\"pacs.008\",\"OrgnlTxId\":\"T" + number
            + "\",\"TxSts\":\"ACCP\",\"DbtrAgt\":\"BANKDEFF\"}";
    }

    private static String recall(String transactions) {
        return "{\"MsgNmId\":\"camt.056\",\"MsgId\":\"K1\",\"CreDtTm\":\"2024-05-03T09:00:00Z\",\"InstgAgt\":\"BANKDEFF\",\"TxInf\":["
            + transactions + "]}";
    }

    /** A delta of instructions. */
    private static byte[] delta(int origin, int first, int... numbers) {
        StringBuilder text = new StringBuilder("delta 2\norigin " + origin + " " + first + " " + numbers.length + "\n");
        for (int number : numbers) {
            text.append(instruction(number)).append('\n');
        }
        return bytes(text + "end " + numbers.length + "\n");
    }

    // ---- the examples

    private static void example(Path folder, String name) throws IOException {
        byte[] text = Files.readAllBytes(folder.resolve(name + ".jsonl"));
        byte[] right = Files.readAllBytes(folder.resolve(name + ".refused"));
        try (Site whole = new Site(1, 3); Site single = new Site(2, 3)) {
            Site.LinesTaken taken = whole.takeLines(text);
            same(name + ", refused lines", taken.refusedText(), right);
            long fresh = 0;
            long repeats = 0;
            long refused = 0;
            boolean numbered = true;
            StringBuilder reasons = new StringBuilder();
            List<byte[]> all = lines(text);
            for (int at = 0; at < all.size(); at++) {
                if (string(all.get(at)).isBlank()) {
                    continue;
                }
                try {
                    Site.Taken one = single.take(all.get(at));
                    fresh += one.isRepeat() ? 0 : 1;
                    repeats += one.isRepeat() ? 1 : 0;
                    numbered &= one.number() == (one.isRepeat() ? 0 : fresh);
                } catch (NiluppangException fault) {
                    refused++;
                    numbered &= fault.reason().split(" ")[0].equals(Integer.toString(fault.number()));
                    reasons.append("line ").append(at + 1).append(": ").append(fault.reason()).append('\n');
                }
            }
            is(name + ", the numbers of takes and of refusals", numbered && fresh > 0);
            same(name + ", the refused lines one by one", bytes(reasons.toString()), right);
            is(name + ", counts", taken.fresh() == fresh && whole.counts()[0] == fresh && single.counts()[1] == fresh
                    && taken.repeats() == repeats && taken.refused() == refused && whole.takeLines(text).repeats() == fresh + repeats);
            for (Site site : new Site[] {whole, single}) {
                same(name + ", status", site.statusText(), Files.readAllBytes(folder.resolve(name + ".status")));
                same(name + ", archive", site.archiveText(), Files.readAllBytes(folder.resolve(name + ".archive")));
                same(name + ", totals", site.totalsText(), Files.readAllBytes(folder.resolve(name + ".totals")));
            }
            exchanged(name, whole, text);
        }
        read(folder, name, text, right);
    }

    /** A peer accepts what a site cut, a site is restored of it, and all answer the same. */
    private static void exchanged(String name, Site site, byte[] text) {
        byte[] delta = site.cut("-");
        same(name + ", cut above counts", site.cutAbove(), delta);
        try (Site peer = new Site(3, 3)) {
            is(name + ", accepted", peer.accept(delta) == site.counts()[0] && peer.accept(delta) == 0);
            same(name + ", vector", peer.vectorText(), site.vectorText());
            same(name + ", archive of a peer", peer.archiveText(), site.archiveText());
        }
        try (Site again = Site.restore(1, 3, text, delta); Site other = Site.restore(2, 3, new byte[0], delta);
                Site kept = Site.restore(1, 3, site.journal(0), delta)) {
            same(name + ", status of a restored site", again.statusText(), site.statusText());
            same(name + ", status of a site of a delta", other.statusText(), site.statusText());
            is(name + ", nothing refused of the delta", other.refusedText().length == 0);
            same(name + ", cut of a site of its journal", kept.cut("-"), delta);
            is(name + ", nothing refused of the journal", kept.refusedText().length == 0);
        }
    }

    /** What a site reads in an example: the refused lines, and the messages of the archive text. It takes none. */
    private static void read(Path folder, String name, byte[] text, byte[] refused) throws IOException {
        try (Site site = new Site(1, 1)) {
            StringBuilder faults = new StringBuilder();
            Set<String> messages = new TreeSet<>();
            for (byte[] line : lines(site.reading(text))) {
                if (line[0] == '{') {
                    messages.add(string(line));
                } else {
                    faults.append(string(line)).append('\n');
                }
            }
            same(name + ", refused lines of a reading", bytes(faults.toString()), refused);
            Set<String> right = new TreeSet<>();
            lines(Files.readAllBytes(folder.resolve(name + ".archive"))).forEach(line -> right.add(string(line)));
            is(name + ", messages of a reading", messages.equals(right) && site.counts()[0] == 0);
        }
    }

    // ---- each number

    /** The names and the meanings of numbers, as the header has them. */
    private static void tabulate(Path header) throws IOException {
        Matcher row = Pattern.compile("^ \\*     (\\d\\d) ([A-Z][a-z]\\w*) +(.*)$", Pattern.MULTILINE).matcher(Files.readString(header));
        while (row.find()) {
            table.put(Integer.parseInt(row.group(1)), new String[] {row.group(2), row.group(3)});
        }
        is("the header has 27 numbers", table.size() == 27);
        for (int number = 0; number < 256; number++) {
            String[] words = table.getOrDefault(number, new String[] {"Unknown", "a number of a later version"});
            if (!Library.name(number).equals(words[0]) || !Library.meaning(number).equals(words[1])) {
                is("the name and the meaning of " + number, false);
            }
        }
    }

    private static void messages(Site site) {
        Map<String, String> faults = new TreeMap<>(Map.of("", "31", "[]", "32", "{}", "33"));
        faults.put(instruction(1).replace("\"TxId\":\"T1\",", ""), "34 TxId");
        faults.put(instruction(1).replace("\"T1\"", "1"), "35 TxId");
        faults.put(instruction(1).replace("\"BANQFRPP\"", "\"B\""), "36 CdtrAgt 1");
        faults.put(instruction(1, ",\"ä\\\"\":\"\""), "37 \"ä\\\"\"");
        faults.put(instruction(1).replace("EUR", "USD"), "38 11");
        faults.put(recall(""), "46 0");
        faults.put(recall(RECALLED + ",7"), "46 2");
        faults.put(recall(RECALLED + "," + RECALLED.replace("FRAD", "fraud")), "56 2 36 Rsn 9");
        faults.forEach((json, reason) -> {
            String[] words = reason.split(" ");
            long place = words[0].equals("46") || words[0].equals("56") ? Long.parseLong(words[1]) : 0;
            refused("a message", Integer.parseInt(words[0]), place, reason, () -> site.take(json));
            same("the same line", site.takeLines(bytes(json.isEmpty() ? "x" : json)).refusedText(), "line 1: " + reason + "\n");
        });
    }

    private static void deltas(Site site) {
        refused("a delta", 41, 0, "41 1 1 3", () -> site.accept(delta(1, 3, 4)));
        refused("a delta", 42, 0, "42 1 1", () -> site.accept(delta(1, 1, 2)));
        refused("a delta", 43, 0, "43 2", () -> site.accept(delta(2, 2, 4)));
        refused("a delta", 44, 0, "44", () -> site.accept(delta(4, 1, 4)));
        refused("a delta", 45, 1, "45 1", () -> site.accept(new byte[0]));
        refused("a delta", 45, 4, "45 4", () -> site.accept(Arrays.copyOf(delta(3, 1, 4), delta(3, 1, 4).length - 1)));
    }

    private static void questions(Site site) {
        byte[] list = bytes("DbtrAgt,TxId,Amt,Sts\n\nx\n");
        refused("a vector", 72, 0, "72", () -> site.cut("1:1:1"));
        refused("a vector as a stream", 72, 0, "72", () -> site.cutStream(""));
        refused("a count", 72, 0, "", () -> site.cutAbove(0, -1));
        refused("counts", 44, 0, "44", () -> site.cutAbove(new long[1025]));
        refused("no origin", 73, 1, "73 1", () -> site.entries(0, 0, 1));
        refused("an origin that is none", 73, 1, "73 1", () -> site.entries(1025, 0, 1));
        refused("no room", 73, 3, "73 3", () -> site.entries(1, 0, 0));
        refused("too much room", 73, 3, "73 3", () -> site.entries(1, 0, 67108864));
        refused("room below 0", 73, 3, "73 3", () -> site.entries(1, 0, -1));
        for (int number : new int[] {-1, 65536, 65537, Integer.MIN_VALUE}) {
            refused("an origin that is no number of C", 73, 1, "", () -> site.entries(number, -1, 1));
        }
        refused("a count below 0", 73, 2, "", () -> site.entries(1, -1, 1));
        refused("no origin", 73, 1, "73 1", () -> site.digest(0, 0));
        refused("an origin that is none", 73, 1, "73 1", () -> site.digest(1025, 0));
        refused("a count that is not held", 73, 2, "73 2", () -> site.digest(1, 99));
        refused("a count below 0", 73, 2, "", () -> site.digest(1, -1));
        refused("an origin that is no number of C", 73, 1, "", () -> site.digest(65536, -1));
        refused("a list", 48, 1, "48 1", () -> site.report("BANKDEFF", "2024-05-02", new byte[0]));
        refused("a list", 48, 2, "48 2", () -> site.report("BANKDEFF", "2024-05-02", list));
        refused("a bank", 73, 1, "73 1", () -> site.report("bank", "2024-05-02", list));
        refused("a day", 73, 2, "73 2", () -> site.report("BANKDEFF", "today", list));
        refused("a day of what is kept", 73, 1, "73 1", () -> site.keptText("2024-5-02"));
        refused("a day of what is closed", 73, 1, "73 1", () -> site.closedText(""));
        refused("a bank", 73, 1, "73 1", () -> site.transfer("", "T1"));
        refused("an identification", 73, 2, "73 2", () -> site.transfer("BANKDEFF", ""));
        refused("a bank", 73, 1, "73 1", () -> site.messages("bank", "T1"));
        refused("an identification", 73, 2, "73 2", () -> site.messages("BANKDEFF", "T//1"));
        refused("a bank", 73, 1, "73 1", () -> site.bankTotals("X"));
        questionsForBanks(site);
        for (long number : new long[] {-1, Long.MIN_VALUE}) {
            is("a number of messages below 0", failure(() -> site.journal(number)) instanceof IllegalArgumentException
                && failure(() -> site.journalStream(number)) instanceof IllegalArgumentException
                && failure(() -> site.newest(number)) instanceof IllegalArgumentException);
        }
    }

    private static void questionsForBanks(Site site) {
        byte[] list = bytes("DbtrAgt,TxId,Amt,Sts\n");
        refused("no banks", 73, 1, "73 1", () -> site.transferFor("BANKDEFF,", "", ""));
        refused("a bank", 73, 2, "73 2", () -> site.transferFor("BANKDEFF", "bank", ""));
        refused("an identification", 73, 3, "73 3", () -> site.messagesFor("BANKDEFF", "BANKDEFF", "T//1"));
        refused("no banks", 73, 1, "73 1", () -> site.bankTotalsFor("", ""));
        refused("a bank of others", 79, 0, "79", () -> site.bankTotalsFor("BANKITMM", "BANKDEFF"));
        refused("a day", 73, 3, "73 3", () -> site.reportFor("BANKITMM", "BANKDEFF", "today", list));
        refused("a report of others", 79, 0, "79", () -> site.reportFor("BANKITMM", "BANKDEFF", "2024-05-02", new byte[0]));
        refused("a list", 48, 1, "48 1", () -> site.reportFor("BANKDEFF", "BANKDEFF", "2024-05-02", new byte[0]));
    }

    /** Messages that may not be sent in the name of banks. The site holds the instruction 3. */
    private static void withheld(Site site) {
        String several = recall(RECALLED + "," + RECALLED.replace("BANKDEFF", "BANKITMM"));
        refused("no banks", 73, 1, "73 1", () -> site.takeAs("BANKDEFF,", "{"));
        refused("no message", 31, 0, "31", () -> site.takeAs("BANKITMM", "{"));
        refused("another sender", 81, 0, "81", () -> site.takeAs("BANKITMM", instruction(4)));
        refused("another originator bank", 82, 2, "82 2", () -> site.takeAs("BANKDEFF", several));
        refused("another beneficiary bank", 83, 0, "83", () -> site.takeAs("BANKITMM", confirmation(3, "BANKITMM")));
        refused("an early answer", 84, 0, "84 BANKDEFFXXX T4", () -> site.takeAs("BANQFRPP", confirmation(4, "BANQFRPP")));
        String spaced = confirmation(4, "BANQFRPP").replace("\"T4\"", "\"T 4 B\"");
        for (String[] one : new String[][] {{confirmation(4, "BANQFRPP"), "T4"}, {spaced, "T 4 B"}}) {
            is("the transfer that is waited for: " + one[1], failure(() -> site.takeAs("BANQFRPP", one[0])) instanceof NiluppangException waits
                && waits.waitsFor().equals(Optional.of(new Site.Transfer("BANKDEFFXXX", one[1]))));
        }
        String wrong = instruction(4).replace("\"BANQFRPP\"", "\"B\"");
        is("no other refusal waits", failure(() -> site.takeAs("BANKDEFF", wrong)) instanceof NiluppangException other
            && other.reason().equals("36 CdtrAgt 1") && other.waitsFor().isEmpty());
    }

    /** Each call after the site was closed. */
    private static void closed(Site site) {
        List<Call> calls = List.of(() -> site.take(""), () -> site.takeLines(bytes("")), () -> site.accept(bytes("")),
            () -> site.takeAs("BANKDEFF", ""), site::changes);
        for (Call call : calls) {
            refused("a site that is closed", 70, 0, "", call);
        }
        closedToQuestions(site);
    }

    /** Each question after a site or a snapshot was closed. */
    private static void closedToQuestions(Questions site) {
        List<Call> calls = List.of(site::snapshot, site::counts,
            () -> site.reading(bytes("")), site::vectorText, () -> site.cut("-"), () -> site.cutStream("-"), site::cutAbove,
            () -> site.entries(1, 0, 1), () -> site.digest(1, 0), site::digestsText, () -> site.journal(0), () -> site.journalStream(0), () -> site.newest(1), site::evaluate, site::archiveText,
            site::archiveStream, site::statusText, site::statusStream, site::totalsText, site::contradictionsText,
            site::answer, site::answerEnd,
            () -> site.report("BANKDEFF", "2024-05-02", bytes("")), () -> site.keptText("2024-05-02"),
            () -> site.closedText("2024-05-02"), () -> site.transfer("BANKDEFF", "T1"),
            () -> site.messages("BANKDEFF", "T1"), () -> site.bankTotals("BANKDEFF"),
            () -> site.transferFor("BANKDEFF", "BANKDEFF", "T1"), () -> site.messagesFor("BANKDEFF", "BANKDEFF", "T1"),
            () -> site.bankTotalsFor("BANKDEFF", "BANKDEFF"), () -> site.reportFor("BANKDEFF", "BANKDEFF", "2024-05-02", bytes("")));
        for (Call call : calls) {
            refused("a question to what is closed", 70, 0, "", call);
        }
        site.close();
        is("it is closed", site.isClosed());
    }

    private static void numbers() {
        try (Site site = new Site(2, 3)) {
            site.take(instruction(3));
            site.accept(delta(1, 1, 1));
            messages(site);
            deltas(site);
            byte[] answer = site.statusText();
            questions(site);
            withheld(site);
            snapshotTakes(site);
            same("the answer is as it was", site.answer(), answer);
            is("and what is held", Arrays.equals(site.counts(), new long[] {1, 1, 0}) && !site.isClosed());
            site.close();
            closed(site);
        }
        for (int[] one : new int[][] {{3, 2}, {0, 1}, {1, 1025}, {70000, 2}, {1, -1}}) {
            refused("a site", 44, 0, "", () -> new Site(one[0], one[1]));
            refused("a site", 44, 0, "", () -> Site.restore(one[0], one[1], bytes("x"), bytes("")));
        }
        Set<Integer> all = new TreeSet<>(table.keySet());
        all.remove(65);
        is("each number is met", MET.equals(all));
    }

    // ---- questions

    private static void answers(Path folder) throws IOException {
        try (Site site = new Site(1, 2)) {
            is("a watch begins", site.changes().isEmpty());
            site.takeLines(Files.readAllBytes(folder.resolve("bank-day.jsonl")));
            is("changes", site.changes().contains(new Site.Transfer("LUTEFRPPXXX", "LU,10")) && site.changes().isEmpty());
            same("one transfer", site.transfer("LUTEFRPP", "LU,10"), "T|LUTEFRPPXXX|LU,10|INVESTIGATED\n");
            same("an unknown transfer", site.transfer("LUTEFRPP", "X"), "T|LUTEFRPPXXX|X|UNKNOWN\n");
            is("messages", lines(site.messages("LUTEFRPPXXX", "LU20250310B6")).size() == 3);
            is("totals", string(site.totalsText()).contains(string(site.bankTotals("LUTEFRPP"))));
            is("contradictions", site.contradictionsText().length == 0);
            byte[] list = Files.readAllBytes(folder.resolve("bank-day.list"));
            byte[] report = Files.readAllBytes(folder.resolve("bank-day.report"));
            same("report", site.report("LUTEFRPP", "2025-03-10", list), report);
            site.evaluate();
            same("the answer stays", site.answer(), report);
            site.answerEnd();
            same("until it ends", site.answer(), "");
            split(site, lines(Files.readAllBytes(folder.resolve("bank-day.archive"))));
        }
    }

    /** What is kept of the bank's day on the day after it, and what is closed: six of its transfers are not done. */
    private static void split(Site site, List<byte[]> archive) {
        StringBuilder kept = new StringBuilder();
        StringBuilder closed = new StringBuilder();
        List<String> notDone = List.of("HH-0303", "LU,10", "LU20250310B3", "LU20250310B5", "LU20250310B6", "LU20250310B9");
        for (byte[] bytes : archive) {
            String line = string(bytes);
            boolean isKept = notDone.stream().anyMatch(tx -> line.contains("TxId\":\"" + tx + "\""));
            (isKept ? kept : closed).append(line).append('\n');
        }
        same("what is kept", site.keptText("2025-03-11"), kept.toString());
        same("what is closed", site.closedText("2025-03-11"), closed.toString());
        same("nothing is closed on the day itself", site.closedText("2025-03-10"), "");
        is("all is kept then", lines(site.keptText("2025-03-10")).size() == archive.size());
    }

    /** What banks send, and what they are shown: BANKDEFF sends T1 to BANQFRPP and T2 to BANKITMM, and recalls both. */
    private static void banks() {
        try (Site site = new Site(1, 2)) {
            is("a message in the name of a bank", site.takeAs("BANKDEFF", instruction(1)).number() == 1);
            is("a repeat", site.takeAs("BANQFRPP,BANKDEFFXXX", bytes(instruction(1))).isRepeat());
            is("the answer to it", site.takeAs("BANQFRPP", confirmation(1, "BANQFRPP")).number() == 2);
            site.take(instruction(2).replace("BANQFRPP", "BANKITMM"));
            site.take(recall(RECALLED + "," + RECALLED.replace("\"T1\"", "\"T2\"")));
            String lines = "T|BANKDEFFXXX|T1|ACCEPTED\nR|BANKDEFFXXX|T1|R1|OPEN\n";
            for (String banks : new String[] {"BANKDEFF", "BANQFRPP", "BANKITMM,BANQFRPPXXX"}) {
                same("a transfer of " + banks, site.transferFor(banks, "BANKDEFF", "T1"), lines);
            }
            same("a transfer of others", site.transferFor("BANKITMM", "BANKDEFF", "T1"), "T|BANKDEFFXXX|T1|UNKNOWN\n");
            same("messages of others", site.messagesFor("BANKITMM", "BANKDEFF", "T1"), "");
            same("all messages of theirs", site.messagesFor("BANKDEFF", "BANKDEFF", "T1"), site.messages("BANKDEFF", "T1"));
            String flat = "{\"Ccy\":\"EUR\",\"CreDtTm\":\"2024-05-03T09:00:00Z\",\"CxlId\":\"R1\",\"DbtrAgt\":\"BANKDEFFXXX\","
                + "\"InstgAgt\":\"BANKDEFFXXX\",\"MsgId\":\"K1\",\"MsgNmId\":\"camt.056\",\"OrgnlIntrBkSttlmAmt\":\"1.00\","
                + "\"OrgnlMsgId\":\"M1\",\"OrgnlMsgNmId\":\"pacs.008\",\"OrgnlTxId\":\"T2\",\"Rsn\":\"FRAD\"}\n";
            same("a recall in part", site.messagesFor("BANKITMM", "BANKDEFF", "T2"),
                flat + archived(2).replace("BANQFRPP", "BANKITMM"));
            same("totals", site.bankTotalsFor("BANQFRPP", "BANQFRPP"), "BANQFRPPXXX|0|0.00|0.00|0|0|0|0|1|1.00|0.00\n");
            byte[] list = bytes("DbtrAgt,TxId,Amt,Sts\nBANKDEFF,T1,1.00,ACCEPTED\nBANKDEFF,T2,1.00,PENDING\n");
            String mine = "DbtrAgt,TxId,Result,ListAmt,ListSts,Amt,Sts\nBANKDEFFXXX,T1,MATCHED,1.00,ACCEPTED,1.00,ACCEPTED\n";
            same("a report", site.reportFor("BANQFRPP", "BANQFRPP", "2024-05-02", list),
                mine + "BANKDEFFXXX,T2,ONLY_IN_LIST,1.00,PENDING,,UNKNOWN\n");
            same("a report for two banks", site.reportFor("BANKITMM,BANQFRPP", "BANQFRPP", "2024-05-02", list),
                mine + "BANKDEFFXXX,T2,MATCHED,1.00,PENDING,1.00,PENDING\n");
        }
    }

    /** The journal and arrivals of a site that takes messages and accepts others. */
    private static void arrivals() {
        try (Site site = new Site(2, 2)) {
            same("no journal", site.journal(0), "");
            site.take(instruction(7));
            is("accepted", site.accept(delta(1, 1, 9, 7, 4)) == 3);
            site.takeLines(bytes(instruction(3) + "\n" + instruction(9) + "\n" + instruction(1)));
            String[] own = {archived(7), archived(3), archived(1)};
            String[] came = {archived(7), archived(9), archived(7), archived(4), archived(3), archived(1)};
            for (int many = 0; many <= 7; many++) {
                int above = Math.min(many, own.length);
                same("journal above " + many, site.journal(many), String.join("", Arrays.copyOfRange(own, above, own.length)));
                int from = Math.max(0, came.length - many);
                same("the newest " + many, site.newest(many), String.join("", Arrays.copyOfRange(came, from, came.length)));
            }
            same("journal above the most", site.journal(Long.MAX_VALUE), "");
            same("the most", site.newest(Long.MAX_VALUE), String.join("", came));
            String twice = "{\"MsgId\":\"M9\"," + instruction(4).substring(1);
            same("a reading", site.reading(bytes(twice + "\n \n[]\n" + instruction(7))), archived(4) + "line 3: 32\n" + archived(7));
        }
    }

    /** A delta of instructions, as a site writes it. */
    private static byte[] written(int origin, int first, int... numbers) {
        StringBuilder text = new StringBuilder("delta 2\norigin " + origin + " " + first + " " + numbers.length + "\n");
        for (int number : numbers) {
            text.append(archived(number));
        }
        return bytes(text + "end " + numbers.length + "\n");
    }

    /** What a site has that asks for entries of one origin, in room for one, for some and for all. */
    private static void entries() {
        try (Site site = new Site(2, 3)) {
            site.accept(delta(1, 1, 9, 7, 4, 5));
            site.take(instruction(8));
            int[] room = {written(1, 1, 9).length, written(1, 1, 9, 7).length, written(1, 1, 9, 7, 4, 5).length};
            same("all", site.entries(1, 0, 67108863), written(1, 1, 9, 7, 4, 5));
            same("in just their room", site.entries(1, 0, room[2]), written(1, 1, 9, 7, 4, 5));
            same("in a byte less", site.entries(1, 0, room[2] - 1), written(1, 1, 9, 7, 4));
            same("in room for two", site.entries(1, 0, room[1]), written(1, 1, 9, 7));
            same("in room for one", site.entries(1, 0, room[1] - 1), written(1, 1, 9));
            same("in room for none", site.entries(1, 0, 1), written(1, 1, 9));
            same("above some", site.entries(1, 2, room[1]), written(1, 3, 4, 5));
            same("its own", site.entries(2, 0, room[0]), written(2, 1, 8));
            for (long[] none : new long[][] {{1, 4}, {1, Long.MAX_VALUE}, {3, 0}, {9, 0}}) {
                same("no entries", site.entries((int) none[0], none[1], room[0]), "delta 2\nend 0\n");
            }
        }
    }

    /** The digest of a digest and of instructions after it, as the archive text has them. */
    private static byte[] chained(byte[] before, int... numbers) {
        try {
            byte[] digest = before;
            for (int number : numbers) {
                MessageDigest hash = MessageDigest.getInstance("SHA-256");
                hash.update(digest);
                hash.update(bytes(archived(number)));
                digest = hash.digest();
            }
            return digest;
        } catch (NoSuchAlgorithmException none) {
            throw new AssertionError(none);
        }
    }

    private static String hex(byte[] digest) {
        StringBuilder text = new StringBuilder();
        for (byte one : digest) {
            text.append(String.format("%02x", one));
        }
        return text.toString();
    }

    /** What a site has that asks for digests, before and after more messages come. */
    private static void digests() {
        try (Site site = new Site(2, 3)) {
            same("no digests", site.digestsText(), "");
            site.accept(delta(1, 1, 9, 7));
            same("of one site", site.digestsText(), "1:2:" + hex(chained(new byte[32], 9, 7)) + "\n");
            site.accept(delta(1, 3, 4));
            site.take(instruction(8));
            same("of none", site.digest(1, 0), "0".repeat(64));
            same("of some", site.digest(1, 1), hex(chained(new byte[32], 9)));
            same("of all", site.digest(1, 3), hex(chained(new byte[32], 9, 7, 4)));
            same("of two sites", site.digestsText(), "1:3:" + hex(chained(new byte[32], 9, 7, 4)) + "\n2:1:" + hex(chained(new byte[32], 8)) + "\n");
        }
    }

    // ---- snapshots

    /** A snapshot of a site takes nothing, whatever it is given. The calls of the library are made on its handle. */
    private static void snapshotTakes(Site site) {
        try (Snapshot snapshot = site.snapshot()) {
            for (String text : new String[] {instruction(9), "{", "x", "delta 2\nend 0\n"}) {
                byte[] one = bytes(text);
                byte[] banks = bytes("BANKDEFF");
                refused("a message to a snapshot", 85, 0, "85", () -> {
                    Library.TakenOutcome done = Library.sct_raw_take(snapshot.handle, one, one.length);
                    snapshot.check(done.ok, done.code, done.place);
                });
                refused("a message of a bank to a snapshot", 85, 0, "85", () -> {
                    Library.TakenOutcome done = Library.sct_raw_take_as(snapshot.handle, banks, banks.length, one, one.length);
                    snapshot.check(done.ok, done.code, done.place);
                });
                refused("lines to a snapshot", 85, 0, "85", () -> {
                    Library.LinesOutcome done = Library.sct_raw_take_lines(snapshot.handle, one, one.length);
                    snapshot.check(done.ok, done.code, done.place);
                });
                refused("a delta to a snapshot", 85, 0, "85", () -> {
                    Library.AcceptedOutcome done = Library.sct_raw_accept(snapshot.handle, one, one.length);
                    snapshot.check(done.ok, done.code, done.place);
                });
            }
            refused("a site in the place of a snapshot", 71, 0, "85",
                () -> snapshot.checked(Library.sct_raw_open(snapshot.handle, (short) 1, (short) 1)));
            refused("a snapshot in the place of one", 71, 0, "",
                () -> site.checked(Library.sct_raw_snapshot(site.handle, snapshot.handle)));
            is("what the snapshot holds", Arrays.equals(snapshot.counts(), site.counts()) && snapshot.answer().length == 0);
        }
    }

    /** What a site of two instructions, and of one that it accepted, is asked, each answer as text. */
    private static List<String> asked(Questions of) {
        byte[] list = bytes("DbtrAgt,TxId,Amt,Sts\n");
        List<byte[]> found = List.of(of.vectorText(), of.cut("1:1"), of.cutAbove(1), of.entries(1, 1, 1 << 20), of.digestsText(),
            of.journal(1), of.newest(2), of.archiveText(), of.statusText(), of.totalsText(), of.contradictionsText(),
            of.report("BANKDEFF", "2024-05-02", list), of.keptText("2024-05-02"), of.closedText("2025-01-01"),
            of.transfer("BANKDEFF", "T1"), of.messages("BANKDEFF", "T1"), of.bankTotals("BANKDEFF"),
            of.transferFor("BANQFRPP", "BANKDEFF", "T1"), of.messagesFor("BANQFRPP", "BANKDEFF", "T1"),
            of.bankTotalsFor("BANQFRPP", "BANQFRPP"), of.reportFor("BANQFRPP", "BANQFRPP", "2024-05-02", list));
        List<String> texts = new ArrayList<>(found.stream().map(SiteTest::string).toList());
        texts.add(Arrays.toString(of.counts()));
        return texts;
    }

    /** A snapshot answers as its site did when it was made, and the site goes on. */
    private static void snapshots(Path folder) throws IOException {
        Site site = new Site(1, 3);
        site.take(instruction(1));
        site.take(instruction(2));
        site.accept(delta(2, 1, 5));
        List<String> then = asked(site);
        Snapshot snapshot = site.snapshot();
        Snapshot again = snapshot.snapshot();
        Snapshot third = site.snapshot();
        third.close();
        is("a snapshot has no answer", snapshot.answer().length == 0 && snapshot.number() == 1 && snapshot.group() == 3);
        site.take(instruction(2).replace("\"T2\"", "\"T7\""));
        site.take(confirmation(1, "BANQFRPP"));
        site.take(confirmation(2, "BANQFRPP"));
        site.accept(delta(2, 2, 6));
        same("the status of a snapshot", snapshot.statusText(),
            "T|BANKDEFFXXX|T1|PENDING\nT|BANKDEFFXXX|T2|PENDING\nT|BANKDEFFXXX|T5|PENDING\n");
        same("its journal", snapshot.journal(0), archived(1) + archived(2));
        same("the transfer at the site", site.transfer("BANKDEFF", "T1"), "T|BANKDEFFXXX|T1|ACCEPTED\n");
        List<String> now = asked(site);
        List<String> found = asked(snapshot);
        for (int at = 0; at < then.size(); at++) {
            is("question " + at + " to a snapshot", found.get(at).equals(then.get(at)) && !now.get(at).equals(then.get(at)));
        }
        closedToQuestions(third);
        site.close();
        is("a snapshot of a site that is closed", asked(snapshot).equals(then) && !snapshot.isClosed());
        snapshot.close();
        is("a snapshot of a snapshot that is closed", asked(again).equals(then));
        refused("another snapshot of it", 70, 0, "", snapshot::snapshot);
        again.close();
        try (Site day = new Site(1, 1)) {
            day.takeLines(Files.readAllBytes(folder.resolve("bank-day.jsonl")));
            try (Snapshot held = day.snapshot()) {
                day.take(instruction(1));
                byte[] archive = Files.readAllBytes(folder.resolve("bank-day.archive"));
                InputStream stream = held.archiveStream();
                byte[] first = stream.readNBytes(10);
                day.statusText();
                is("a stream of a snapshot", Arrays.equals(first, Arrays.copyOf(archive, 10))
                    && Arrays.equals(stream.readAllBytes(), Arrays.copyOfRange(archive, 10, archive.length)));
                same("the day's status", held.statusText(), Files.readAllBytes(folder.resolve("bank-day.status")));
                same("the day's totals", held.totalsText(), Files.readAllBytes(folder.resolve("bank-day.totals")));
                is("another one at the site", !Arrays.equals(day.archiveText(), archive));
            }
        }
    }

    /** One thread takes, and each other one asks snapshots: each answers on as many of the first messages as it counts. */
    private static void snapshotsBesideTakes() throws InterruptedException {
        int many = 300;
        CountDownLatch over = new CountDownLatch(1);
        boolean[] isRight = {true, true, true, true};
        try (Site site = new Site(1, 1)) {
            run(4, which -> {
                if (which == 0) {
                    for (int number = 0; number < many; number++) {
                        site.take(instruction(1000 + number));
                    }
                    over.countDown();
                    return;
                }
                long least = 0;
                for (boolean isLast = false; !isLast;) {
                    isLast = over.getCount() == 0;
                    try (Snapshot snapshot = site.snapshot()) {
                        long held = snapshot.counts()[0];
                        StringBuilder right = new StringBuilder();
                        for (int number = 0; number < held; number++) {
                            right.append("T|BANKDEFFXXX|T").append(1000 + number).append("|PENDING\n");
                        }
                        isRight[which] &= held >= least && string(snapshot.statusText()).equals(right.toString());
                        least = held;
                    }
                }
                isRight[which] &= least == many;
            });
        }
        is("three threads ask snapshots while one takes", isRight[1] && isRight[2] && isRight[3]);
    }

    // ---- streams

    /** What is read of a stream, in parts of a size. */
    private static byte[] all(InputStream stream, int size) throws IOException {
        ByteArrayOutputStream found = new ByteArrayOutputStream();
        byte[] part = new byte[size + 2];
        for (int length = stream.read(part, 1, size); length >= 0; length = stream.read(part, 1, size)) {
            found.write(part, 1, length);
        }
        is("nothing is written beside a part", part[0] == 0 && part[size + 1] == 0);
        return found.toByteArray();
    }

    private static void streams(Path folder) throws IOException {
        byte[] status = Files.readAllBytes(folder.resolve("hub-morning.status"));
        byte[] archive = Files.readAllBytes(folder.resolve("hub-morning.archive"));
        try (Site site = new Site(1, 1)) {
            is("nothing is at its end", site.statusStream().read() == -1);
            site.takeLines(Files.readAllBytes(folder.resolve("hub-morning.jsonl")));
            for (int size : new int[] {1, 7, 1 << 20}) {
                same("archive in parts of " + size, all(site.archiveStream(), size), archive);
                same("status in parts of " + size, all(site.statusStream(), size), status);
                same("cut in parts of " + size, all(site.cutStream("1:50"), size), site.cut("1:50"));
                same("journal in parts of " + size, all(site.journalStream(50), size), site.journal(50));
            }
            InputStream bytes = site.statusStream();
            is("a byte, and none", bytes.read() == status[0] && bytes.read(new byte[1], 0, 0) == 0 && bytes.read() == status[1]);
            for (int[] part : new int[][] {{1, 2}, {-1, 1}, {0, -1}, {3, 0}}) {
                Exception fault = failure(() -> bytes.read(new byte[2], part[0], part[1]));
                is("a part outside of an array", fault instanceof IndexOutOfBoundsException);
            }
            is("and the next byte", bytes.read() == status[2]);
            InputStream stream = site.statusStream();
            ByteArrayOutputStream found = new ByteArrayOutputStream();
            List<Call> kept = List.of(() -> site.take(instruction(1)), site::counts, site::evaluate, site::answer,
                () -> failure(() -> site.cut("x")), () -> site.accept(bytes("delta 2\nend 0\n")));
            for (Call call : kept) {
                found.write(stream.readNBytes(10));
                call.run();
            }
            found.write(stream.readAllBytes());
            same("calls that leave a stream", found.toByteArray(), status);
            List<Call> others = List.of(site::totalsText, site::statusStream, () -> site.takeLines(bytes("")), site::answerEnd,
                site::changes);
            for (Call call : others) {
                InputStream replaced = site.statusStream();
                replaced.readNBytes(10);
                call.run();
                is("a call that replaces a stream", failure(replaced::read) instanceof IOException);
            }
            InputStream open = site.statusStream();
            site.close();
            refused("a stream of a site that is closed", 70, 0, "", open::read);
        }
    }

    // ---- threads

    private static void run(int many, Consumer<Integer> work) throws InterruptedException {
        List<Thread> threads = new ArrayList<>();
        for (int which = 0; which < many; which++) {
            int its = which;
            threads.add(new Thread(() -> work.accept(its)));
        }
        for (Thread thread : threads) {
            thread.start();
        }
        for (Thread thread : threads) {
            thread.join();
        }
    }

    /** Several threads use one site. */
    private static void threads(Path folder) throws IOException, InterruptedException {
        List<byte[]> all = lines(Files.readAllBytes(folder.resolve("bank-day.archive")));
        try (Site site = new Site(1, 1)) {
            run(4, first -> {
                for (int at = 0; at < all.size(); at++) {
                    site.take(all.get((at + 5 * first) % all.size()));
                    site.statusText();
                }
            });
            same("four threads", site.statusText(), Files.readAllBytes(folder.resolve("bank-day.status")));
            is("each message once", site.counts()[0] == all.size());
        }
    }

    /** Each of several threads is told why its own call was refused. */
    private static void reasons() throws InterruptedException {
        String[] json = {"[]", instruction(1).replace("EUR", "USD"), instruction(1).replace("\"BANQFRPP\"", "\"B\"")};
        String[] right = {"32", "38 11", "36 CdtrAgt 1"};
        boolean[] isRight = {true, true, true};
        try (Site site = new Site(1, 1)) {
            run(3, which -> {
                for (int round = 0; round < 100; round++) {
                    isRight[which] &= failure(() -> site.take(json[which])) instanceof NiluppangException fault
                        && fault.reason().equals(right[which]);
                }
            });
        }
        is("reasons of three threads", isRight[0] && isRight[1] && isRight[2]);
    }

    /** A site is closed while others use it: each of them is refused by 70 from then on, and by nothing else. */
    private static void closing() throws InterruptedException {
        Site site = new Site(1, 1);
        CountDownLatch used = new CountDownLatch(20);
        long latest = System.nanoTime() + TimeUnit.SECONDS.toNanos(30);
        int[] numbers = new int[4];
        run(4, which -> {
            if (which == 3) {
                await(used);
                site.close();
            }
            Exception fault = null;
            while (fault == null && System.nanoTime() < latest) {
                fault = failure(() -> {
                    site.take(instruction(which));
                    site.statusText();
                });
                used.countDown();
            }
            numbers[which] = fault instanceof NiluppangException refused && site.isClosed() ? refused.number() : -1;
        });
        is("closed while others use it", Arrays.equals(numbers, new int[] {70, 70, 70, 70}));
    }

    private static boolean await(CountDownLatch latch) {
        try {
            return latch.await(10, TimeUnit.SECONDS);
        } catch (InterruptedException interrupted) {
            return false;
        }
    }

    /** While a call runs, whoever asks whether the site is closed does not wait, and a close does. */
    private static void waiting() throws InterruptedException {
        Site site = new Site(1, 1);
        CountDownLatch asked = new CountDownLatch(1);
        CountDownLatch done = new CountDownLatch(1);
        Thread asking = new Thread(() -> {
            if (!site.isClosed()) {
                asked.countDown();
            }
        });
        Thread closing = new Thread(() -> {
            site.close();
            done.countDown();
        });
        synchronized (site) {
            asking.start();
            is("open to others while a call runs", await(asked));
            closing.start();
            is("a close waits for a call", !done.await(200, TimeUnit.MILLISECONDS) && !site.isClosed());
        }
        is("and then it is closed", await(done) && site.isClosed());
    }

    public static void main(String[] words) throws IOException, InterruptedException {
        Path folder = Path.of(words[0]);
        is("version", Site.libraryVersion().startsWith("0.3."));
        tabulate(folder.resolve("../include/niluppang.h"));
        for (String name : EXAMPLES) {
            example(folder, name);
        }
        numbers();
        answers(folder);
        banks();
        arrivals();
        entries();
        digests();
        snapshots(folder);
        snapshotsBesideTakes();
        streams(folder);
        threads(folder);
        reasons();
        closing();
        waiting();
        System.out.println(passed + " passed, " + failed + " failed");
        System.exit(failed == 0 ? 0 : 1);
    }
}
