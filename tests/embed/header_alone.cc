// header_alone.cc: the programs of header_alone.c by the class niluppang::site, in C++11. They have the same words, and the hub has the
// same events at random, in another order. Sites also move from one object to another.
#include <niluppang.h>
#include <cstdio>
#include <fstream>
#include <initializer_list>
#include <memory>
#include <random>
#include <sstream>
#include <stdexcept>
#include <string>
#include <thread>
#include <utility>
#include <vector>

namespace {

using niluppang::site;
using niluppang::site_snapshot;
using std::string;

void must(bool holds, const char *what) {
    if (!holds) throw std::runtime_error(what);
}

// The bytes of a file.
bool read_file(const string &name, string &text) {
    std::ifstream file(name.c_str(), std::ios::binary);
    std::ostringstream all;
    if (file.peek() != std::ifstream::traits_type::eof()) all << file.rdbuf();
    text = all.str();
    return file.is_open() && !file.bad();
}

bool begins_with(const string &text, const string &beginning) { return text.compare(0, beginning.size(), beginning) == 0; }

// ---- the commands

struct Fault {
    int number;
};

struct File {
    string text, why;
    bool is_accepted;
};

// The number that a word is, or 0.
uint16_t number_in(const string &word) {
    bool is_plain = !word.empty() && word.size() <= 4 && word.find_first_not_of("0123456789") == string::npos && word[0] != '0';
    return is_plain ? static_cast<uint16_t>(std::stoi(word)) : 0;
}

// Fails with the number of a fault unless a call was done.
sct_outcome done(sct_outcome made) {
    if (!made.ok) throw Fault{made.code};
    return made;
}

// How many deltas of a round the site accepts.
int round_of(site &its, std::vector<File> &files) {
    int accepted = 0;
    for (File &file : files) {
        if (file.is_accepted) continue;
        file.is_accepted = its.accept(file.text).ok;
        file.why = its.why();
        accepted += file.is_accepted;
    }
    return accepted;
}

string file_text(const string &name) {
    string text;
    if (!read_file(name, text)) throw Fault{62};
    return text;
}

// The text of a command, by a site that has its journal and its deltas.
string text_of(site &its, const string &command, const string &have) {
    done(command == "cut" ? its.cut(have) : command == "vector" ? its.vector_text() : its.archive_text());
    return its.answer() + (command == "vector" ? "\n" : "");
}

int command_of(std::vector<string> words) {
    const string command = words[0];
    string have;
    if (words.size() < (command == "cut" ? 5U : 4U)) throw Fault{64};
    if (command == "cut") {
        have = words[3];
        words.erase(words.begin() + 3);
    }
    const uint16_t number = number_in(words[1]), group = number_in(words[2]);
    {
        site first;
        if (!first.open(number, group).ok || (command == "cut" && !first.cut(have).ok)) throw Fault{64};
    }
    const string journal = file_text(words[3]);
    std::vector<File> files;
    for (std::size_t place = 4; place < words.size(); place++) files.push_back(File{file_text(words[place]), "", false});
    site its;
    done(its.restore(number, group, journal, ""));
    string refused = its.answer();
    while (round_of(its, files) > 0) continue;
    for (std::size_t place = 0; place < files.size(); place++)
        if (!files[place].is_accepted) refused += "file " + std::to_string(place + 2) + ": " + files[place].why + "\n";
    const string text = text_of(its, command, have);
    std::fwrite(refused.data(), 1, refused.size(), stderr);
    std::fwrite(text.data(), 1, text.size(), stdout);
    return refused.empty() ? 0 : 1;
}

// ---- the calls of a hub, each of which is written

string fields(std::initializer_list<uint64_t> numbers) {
    string text;
    for (uint64_t one : numbers) text += std::to_string(one) + " ";
    return text;
}

string fields(sct_outcome it) { return fields({it.ok, it.code, it.place, it.length, it.reserved}); }

string bytes(const std::vector<uint64_t> &counts) {
    return string(reinterpret_cast<const char *>(counts.data()), counts.size() * sizeof(uint64_t));
}

using Numbers = std::vector<uint64_t>;
using Texts = std::vector<string>;

// What a site or a snapshot is asked.
template <typename Its> class Asked {
  public:
    explicit Asked(int its_number) : number(its_number) {}

    void close() {
        call("close", {}, {});
        its_.close();
        result("", "");
    }
    Numbers counts(std::size_t items) {
        Numbers found(items);
        call("counts", {items}, {});
        const sct_outcome it = its_.counts(found.data(), items);
        result(fields(it), bytes(found));
        return found;
    }
    void evaluate() {
        call("evaluate", {}, {});
        result(fields(its_.evaluate()), "");
    }
    string vector_text() { return asked("vector_text", {}, {}, [&] { return its_.vector_text(); }); }
    string cut(const string &vector) { return asked("cut", {}, {vector}, [&] { return its_.cut(vector); }); }
    string cut_above(const Numbers &counts) {
        return asked("cut_above", {}, {bytes(counts)}, [&] { return its_.cut_above(counts.data(), counts.size()); });
    }
    string entries(uint16_t origin, uint64_t above, uint64_t most) {
        return asked("entries", {origin, above, most}, {}, [&] { return its_.entries(origin, above, most); });
    }
    string digest(uint16_t origin, uint64_t count) {
        return asked("digest", {origin, count}, {}, [&] { return its_.digest(origin, count); });
    }
    string digests_text() { return asked("digests_text", {}, {}, [&] { return its_.digests_text(); }); }
    string journal_text(uint64_t above) { return asked("journal_text", {above}, {}, [&] { return its_.journal_text(above); }); }
    string newest_text(uint64_t count) { return asked("newest_text", {count}, {}, [&] { return its_.newest_text(count); }); }
    string reading_text(const string &text) { return asked("reading_text", {}, {text}, [&] { return its_.reading_text(text); }); }
    string archive_text() { return asked("archive_text", {}, {}, [&] { return its_.archive_text(); }); }
    string status_text() { return asked("status_text", {}, {}, [&] { return its_.status_text(); }); }
    string totals_text() { return asked("totals_text", {}, {}, [&] { return its_.totals_text(); }); }
    string contradictions_text() { return asked("contradictions_text", {}, {}, [&] { return its_.contradictions_text(); }); }
    string answer_end() { return asked("answer_end", {}, {}, [&] { return its_.answer_end(); }); }
    string bank_totals(const string &bank) { return asked("bank_totals", {}, {bank}, [&] { return its_.bank_totals(bank); }); }
    string kept_text(const string &day) { return asked("kept_text", {}, {day}, [&] { return its_.kept_text(day); }); }
    string closed_text(const string &day) { return asked("closed_text", {}, {day}, [&] { return its_.closed_text(day); }); }
    string transfer_text(const string &bank, const string &tx) {
        return asked("transfer_text", {}, {bank, tx}, [&] { return its_.transfer_text(bank, tx); });
    }
    string messages_text(const string &bank, const string &tx) {
        return asked("messages_text", {}, {bank, tx}, [&] { return its_.messages_text(bank, tx); });
    }
    string report(const string &bank, const string &day, const string &list) {
        return asked("report", {}, {bank, day, list}, [&] { return its_.report(bank, day, list); });
    }
    string transfer_text_for(const string &banks, const string &bank, const string &tx) {
        return asked("transfer_text_for", {}, {banks, bank, tx}, [&] { return its_.transfer_text_for(banks, bank, tx); });
    }
    string messages_text_for(const string &banks, const string &bank, const string &tx) {
        return asked("messages_text_for", {}, {banks, bank, tx}, [&] { return its_.messages_text_for(banks, bank, tx); });
    }
    string bank_totals_for(const string &banks, const string &bank) {
        return asked("bank_totals_for", {}, {banks, bank}, [&] { return its_.bank_totals_for(banks, bank); });
    }
    string report_for(const string &banks, const string &bank, const string &day, const string &list) {
        return asked("report_for", {}, {banks, bank, day, list}, [&] { return its_.report_for(banks, bank, day, list); });
    }
    string why() { return its_.why(); }

    const int number;

  protected:
    Its its_;

    void call(const string &name, const Numbers &numbers, const Texts &texts) {
        string line = name + " " + std::to_string(number);
        for (uint64_t one : numbers) line += " " + std::to_string(one);
        for (const string &text : texts) line += " =" + std::to_string(text.size());
        line += "\n";
        for (const string &text : texts) line += text;
        std::fwrite(line.data(), 1, line.size(), stdout);
    }
    void result(const string &its_fields, const string &text) {
        const string why_text = its_.why();
        const string line = its_fields + std::to_string(text.size()) + " " + std::to_string(why_text.size()) + "\n" + text + why_text;
        std::fwrite(line.data(), 1, line.size(), stdout);
    }
    sct_taken took(const sct_taken it) {
        result(fields({it.ok, it.code, it.is_repeat, it.place, it.number, it.reserved}), "");
        return it;
    }
    template <typename Question> string asked(const string &name, const Numbers &numbers, const Texts &texts, Question question) {
        call(name, numbers, texts);
        const sct_outcome it = question();
        const string text = it.ok ? in_parts() : "";
        result(fields(it), text);
        return text;
    }

    // The answer, part by part.
    string in_parts() {
        char part[100];
        string text;
        for (;;) {
            const sct_outcome it = its_.answer_part(text.size(), reinterpret_cast<uint8_t *>(part), sizeof part);
            must(it.ok && it.length <= sizeof part, "a part is not copied");
            if (it.length == 0) break;
            text.append(part, it.length);
        }
        must(text == its_.answer(), "the parts are not the answer");
        return text;
    }
};

// A snapshot of a site.
class Held : public Asked<site_snapshot> {
  public:
    explicit Held(int its_number) : Asked(its_number) {}

    site_snapshot &object() { return its_; }

    // In C++ it has no call that takes.
    void refuse() {
        call("take", {}, {""});
        must(took(sct_site_take(its_.get(), nullptr, 0)).code == SCT_SNAPSHOT, "a snapshot takes a message");
    }
};

// A site, and what is on the disk of its machine.
class Life : public Asked<site> {
  public:
    Life(int its_number, string its_lines, const string &folder)
        : Asked(its_number), kept(0), taken(0), lines(std::move(its_lines)), path(folder + "/journal" + std::to_string(its_number)) {}

    void open(uint16_t which, uint16_t group) {
        call("open", {which, group}, {});
        result(fields(its_.open(which, group)), "");
    }
    string restore(uint16_t which, uint16_t group, const string &journal, const string &delta) {
        return asked("restore", {which, group}, {journal, delta}, [&] { return its_.restore(which, group, journal, delta); });
    }
    sct_taken take(const string &line) {
        call("take", {}, {line});
        return took(its_.take(line));
    }
    sct_taken take_as(const string &banks, const string &line) {
        call("take_as", {}, {banks, line});
        return took(its_.take_as(banks, line));
    }
    void take_lines(const string &text) {
        call("take_lines", {}, {text});
        const sct_lines it = its_.take_lines(text);
        result(fields({it.ok, it.code, it.place, it.fresh, it.repeats, it.refused, it.length, it.reserved}), its_.answer());
    }
    sct_accepted accept(const string &delta) {
        call("accept", {}, {delta});
        const sct_accepted it = its_.accept(delta);
        result(fields({it.ok, it.code, it.place, it.fresh, it.reserved}), "");
        return it;
    }
    string changes() { return asked("changes", {}, {}, [&] { return its_.changes(); }); }
    sct_outcome snapshot(Held &held) {
        call("snapshot", {static_cast<uint64_t>(held.number)}, {});
        const sct_outcome it = its_.snapshot(held.object());
        result(fields(it), "");
        return it;
    }

    // What a thread finds that asks a snapshot while the site takes a line.
    string beside(const string &line) {
        site_snapshot now, later;
        must(its_.snapshot(now).ok && now.snapshot(later).ok, "a snapshot is refused");
        now = std::move(later);
        string found;
        std::thread asking([&found](site_snapshot its) { found = its.status_text().ok ? its.answer() : its.why(); }, std::move(now));
        take(line);
        asking.join();
        must(!now.evaluate().ok && !later.evaluate().ok, "a snapshot is in two objects");
        return found;
    }

    // The site goes to another object, to one whose own site ends by that, and comes back.
    void move() {
        site other(std::move(its_)), third;
        must(third.open(1, 1).ok, "a site is not opened");
        third = std::move(other);
        must(!its_.evaluate().ok && !other.evaluate().ok, "a site is in two objects");
        must(sct_site_answer(third.get(), nullptr, 0).ok, "a site is lost");
        its_ = std::move(third);
    }

    uint64_t kept;                 // how many lines its journal has
    std::size_t taken;             // how many bytes of its lines it took
    const string lines, path;
    string whole;                  // a cut of everything
    Texts waiting;                 // deltas that came
};

// ---- what happens at a hub

class Hub {
  public:
    explicit Hub(const Texts &words)
        : chance_(static_cast<uint32_t>(std::stoul(words[1]))), folder_(words[3]), other_(words[4]),
          group_(static_cast<uint16_t>(words.size() - 5)) {
        for (std::size_t place = 5; place < words.size(); place++) {
            string lines;
            must(read_file(words[place], lines), "a file cannot be read");
            lives_.emplace_back(new Life(static_cast<int>(place) - 4, lines, folder_));
            lives_.back()->open(static_cast<uint16_t>(place - 4), group_);
            held_.emplace_back(new Held(static_cast<int>(place) + 95));
            keep_journal(*lives_.back());
        }
    }
    void run(long steps) {
        for (; steps > 0; steps--) step();
        bring_together();
        agree([](Life &life) { return life.vector_text() + life.archive_text(); });
        for (auto &life : lives_) fork(*life);
        agree([](Life &life) { return life.archive_text() + life.totals_text() + life.status_text(); });
        for (auto &life : lives_) life->close();
        for (auto &held : held_) held->status_text();
        for (auto &held : held_) held->close();
    }

  private:
    std::mt19937 chance_;
    string folder_, other_;
    uint16_t group_;
    std::vector<std::unique_ptr<Life>> lives_;
    std::vector<std::unique_ptr<Held>> held_;  // a snapshot of each

    std::size_t below(std::size_t most) { return chance_() % most; }
    Life &any() { return *lives_[below(lives_.size())]; }

    void keep_journal(Life &life) {
        std::ofstream file(life.path.c_str(), std::ios::binary | std::ios::app);
        file << life.journal_text(life.kept);
        file.close();
        must(!file.fail(), "a journal is not written");
        life.kept = life.counts(static_cast<std::size_t>(life.number)).back();
    }
    string next_lines(Life &life, std::size_t most) {
        const std::size_t first = life.taken;
        for (std::size_t many = 0; many < most && life.taken < life.lines.size(); many++) {
            const std::size_t end = life.lines.find('\n', life.taken);
            life.taken = end == string::npos ? life.lines.size() : end + 1;
        }
        return life.lines.substr(first, life.taken - first);
    }
    void take(Life &life) {
        if (below(2)) {
            life.take_lines(next_lines(life, 4));
        } else {
            const string next = next_lines(life, 1), line = next.substr(0, next.find('\n'));
            if (!life.take_as(banks(), line).ok) life.take(line);
            if (below(3) == 0) life.take(line);  // it comes again
        }
        keep_journal(life);
    }
    void give(Life &giver, Life &taker) {
        Numbers counts(group_);
        for (uint64_t &count : counts) count = below(5);
        const uint16_t origin = static_cast<uint16_t>(below(group_) + 1);
        const uint64_t held = taker.counts(group_)[origin - 1];
        must(below(3) || taker.digest(origin, below(1 + held)).size() == 64, "a digest has another size");
        must(below(3) || taker.digests_text().empty() == (taker.vector_text() == "-"), "a site that holds something has no digest");
        const string delta = below(3)   ? giver.entries(origin, held, 1 + below(3000))
                             : below(3) ? giver.cut(taker.vector_text())
                                        : giver.cut_above(counts);
        if (below(4) == 0) taker.waiting.push_back(delta);
        if (below(4) > 0) taker.waiting.push_back(delta);
    }
    void deliver(Life &life) {
        if (life.waiting.empty()) return;
        const std::size_t place = below(life.waiting.size());
        const string delta = life.waiting[place];
        if (below(4) == 0) {
            must(life.accept(delta.substr(0, below(delta.size()))).code == SCT_BAD_DELTA, "a delta that was cut short is not refused");
            must(begins_with(life.why(), "45 "), "a damaged delta has another reason");
        }
        const sct_accepted accepted = life.accept(delta);
        must(accepted.ok || begins_with(life.why(), "41 "), "a delta is refused that is not early");
        if (accepted.fresh > 0) life.newest_text(accepted.fresh);
        if (below(2)) life.waiting.erase(life.waiting.begin() + static_cast<std::ptrdiff_t>(place));
    }
    void begin_again(Life &life) {
        string journal;
        life.close();
        must(read_file(life.path, journal), "a journal cannot be read");
        const string refused = life.restore(static_cast<uint16_t>(life.number), group_, journal, below(2) ? life.whole : "");
        must(refused.empty() && life.counts(static_cast<std::size_t>(life.number)).back() == life.kept, "a site lost messages");
    }
    string banks() {
        const Texts lists = {"HANSDEHH", "LUTEFRPP,SCALBEBB", "MEUSNL2R,RHEIDE3KXXX,SUOMFIHH", "RHEIDE3K370,ALPEATWW", ",HANSDEHH"};
        return lists[below(lists.size())];
    }
    template <typename Its> void ask_for_banks(Asked<Its> &life) {
        switch (below(4)) {
        case 0: life.transfer_text_for(banks(), "RHEIDE3K", "RK-77"); break;
        case 1: life.messages_text_for(banks(), "RHEIDE3K", "RK-77"); break;
        case 2: life.bank_totals_for(banks(), "RHEIDE3K"); break;
        default: life.report_for(banks(), "RHEIDE3K", "2025-03-10", "DbtrAgt,TxId,Amt,Sts\nRHEIDE3K,RK-77,1.00,PENDING\n");
        }
    }
    void ask(Life &life) {
        switch (below(16)) {
        case 0: life.evaluate(); break;
        case 1: life.answer_end(); break;
        case 2: life.reading_text(life.lines); break;
        case 3: life.changes(); break;
        case 4: life.transfer_text("RHEIDE3K", "RK-77"); break;
        case 5: life.messages_text("RHEIDE3K", ""); break;
        case 6: life.bank_totals("RHEIDE3KXXX"); break;
        case 7: life.contradictions_text(); break;
        case 8: life.report("RHEIDE3K", "2025-03-10", "DbtrAgt,TxId,Amt,Sts\nRHEIDE3K,RK-77,1.00,PENDING\n"); break;
        case 9: life.kept_text("2025-03-11"); break;
        case 10: life.closed_text("2025-03-11"); break;
        case 11: case 12: case 13: case 14: ask_for_banks(life); break;
        default: life.whole = life.cut("-");
        }
    }
    // A snapshot is made where there is none, and asked. It may end.
    void look(Life &life) {
        Held &held = *held_[static_cast<std::size_t>(life.number) - 1];
        const string then = life.status_text();
        must(life.beside(next_lines(life, 1)) == then, "a thread finds another status text in a snapshot");
        keep_journal(life);
        if (life.snapshot(held).ok) must(held.status_text() == life.status_text() && held.number != life.number, "a snapshot differs");
        ask_for_banks(held);
        held.kept_text("2025-03-11");
        held.cut("-");
        held.refuse();
        if (below(2)) held.close();
    }
    void step() {
        Life &life = any();
        switch (below(10)) {
        case 9: look(life); break;
        case 0: take(life); break;
        case 1: case 2: give(life, any()); break;
        case 3: case 4: case 5: deliver(life); break;
        case 6: begin_again(life); break;
        case 7: life.move(); break;
        default: ask(life);
        }
    }
    void bring(Life &giver, Life &taker) { must(taker.accept(giver.cut(taker.vector_text())).ok, "a delta is refused"); }
    void bring_together() {
        for (auto &life : lives_) {
            life->take_lines(next_lines(*life, life->lines.size() + 1));
            keep_journal(*life);
        }
        for (std::size_t place = 1; place < lives_.size(); place++) bring(*lives_[place], *lives_[0]);
        for (std::size_t place = 1; place < lives_.size(); place++) bring(*lives_[0], *lives_[place]);
    }
    template <typename Question> void agree(Question question) {
        const string first = question(*lives_[0]);
        for (auto &life : lives_) must(question(*life) == first, "two sites differ");
    }
    // A site that lost the last line of its journal, and one that has another message in place of its first. Nobody accepts what they cut.
    void fork(Life &life) {
        Life twin(group_ + 1, "", folder_);
        const uint16_t which = static_cast<uint16_t>(life.number);
        string journal = life.journal_text(0);
        const string whole = life.cut("-");
        const std::size_t end = journal.size() > 1 ? journal.rfind('\n', journal.size() - 2) : string::npos;
        journal.resize(end == string::npos ? 0 : end + 1);
        twin.restore(which, group_, journal, "");
        must(twin.accept(whole).code == SCT_OWN_AHEAD && begins_with(twin.why(), "43 "), "a journal that lost a line is not seen");
        twin.close();
        twin.open(which, group_);
        must(twin.take(other_).number == 1, "another message is not taken");
        const string delta = twin.cut("-");
        for (auto &one : lives_) must(one->accept(delta).code == SCT_FORK && begins_with(one->why(), "42 "), "a fork is not refused");
        twin.close();
    }
};

}  // namespace

int main(int count, char **word) {
    const std::vector<string> words(word + 1, word + count);
    int ended = 0;
    try {
        must(!words.empty() && sct_version() / 1000 == SCT_VERSION_NUMBER / 1000, "there is no command, or another version");
        if (words[0] == "hub" && words.size() > 5)
            Hub(words).run(std::stol(words[2]));
        else
            ended = command_of(words);
    } catch (const Fault &fault) {
        std::fprintf(stderr, "fault %d\n", fault.number);
        ended = fault.number == SCT_MEMORY ? 3 : 2;
    } catch (const std::exception &wrong) {
        std::fflush(stdout);
        std::fprintf(stderr, "header_alone: %s\n", wrong.what());
        ended = 70;
    }
    return std::fflush(stdout) == 0 ? ended : 70;
}
