// A plain search for the points of a recorded run of the lock, without proofs: what stamp_explain is
// compared with. It reads an observed history of layout 1 and width 0 on standard input, and writes a
// history that `stamped check` reads, or `stuck E` or `undecided E`. With --time it writes only how many
// configurations were looked at and how long the search took; with --most N it looks at N at most.
#include <algorithm>
#include <chrono>
#include <cstdint>
#include <cstdio>
#include <cstdlib>
#include <cstring>
#include <string>
#include <unordered_set>
#include <vector>

namespace {

using std::string;
using std::uint64_t;
using std::vector;

constexpr uint64_t readers_mask = 127, writer = 128, no_return = UINT64_MAX;
const char *const names[] = {"try_write", "try_read", "write_lock", "read_lock", "optimistic", "validate",
                             "unlock_write", "unlock_read", "unlock", "to_write", "to_read", "to_optimistic",
                             "try_unlock_write", "try_unlock_read", "is_write_locked", "is_read_locked",
                             "read_count"};
enum Name { TryWrite, TryRead, WriteLock, ReadLock, Optimistic, Validate, UnlockWrite, UnlockRead, Unlock,
            ToWrite, ToRead, ToOptimistic, TryUnlockWrite, TryUnlockRead, IsWriteLocked, IsReadLocked,
            ReadCount, NoName };

// Replies that are no stamps and no counts.
enum class Kind { Stamp, Yes, No, Done, Mismatch, Count, Waits };

struct Reply {
    Kind kind = Kind::Waits;
    uint64_t number = 0;
    bool operator==(const Reply &other) const { return kind == other.kind && number == other.number; }
};

struct Entry {
    Name name = NoName;
    uint64_t stamp = 0, first = 0, last = no_return, thread = 0;
    Reply reply;
};

uint64_t most_readers = 127, most_versions = 0;

// The lock's decision on a word: the reply, and the word afterwards.
struct Step {
    Reply reply;
    uint64_t word;
};

Reply stamp(uint64_t number) { return {Kind::Stamp, number}; }
Reply yes_if(bool is) { return {is ? Kind::Yes : Kind::No, 0}; }

uint64_t version_of(uint64_t number) { return number & writer ? number / 256 : number / 256 - 1; }
bool writes(uint64_t word) { return word & writer; }
uint64_t readers(uint64_t word) { return word & readers_mask; }
bool can_write(uint64_t word) { return !writes(word) && !readers(word); }
bool has_version(uint64_t word) { return version_of(word) < most_versions; }
bool is_held_read(uint64_t word, uint64_t s) {
    return !writes(word) && readers(word) && readers(s) && (s & ~readers_mask) == (word & ~readers_mask);
}
bool is_current(uint64_t word, uint64_t s) { return !writes(word) && s == (word & ~readers_mask); }
bool is_held_write(uint64_t word, uint64_t s) { return writes(word) && s == word; }

Step acquire_write(uint64_t word) { return {stamp(word + writer), word + writer}; }
Step acquire_read(uint64_t word) { return {stamp(word + 1), word + 1}; }

Step to_write(uint64_t word, uint64_t s) {
    if (is_held_write(word, s)) return {stamp(s), word};
    if (is_held_read(word, s) && readers(word) == 1 && has_version(word)) return acquire_write(word - 1);
    if (is_current(word, s) && can_write(word) && has_version(word)) return acquire_write(word);
    return {stamp(0), word};
}

Step to_read(uint64_t word, uint64_t s) {
    if (is_held_write(word, s)) return acquire_read(word + writer);
    if (is_held_read(word, s)) return {stamp(s), word};
    if (is_current(word, s) && readers(word) < most_readers) return acquire_read(word);
    return {stamp(0), word};
}

Step to_optimistic(uint64_t word, uint64_t s) {
    if (is_held_write(word, s)) return {stamp(word + writer), word + writer};
    if (is_held_read(word, s)) return {stamp(word & ~readers_mask), word - 1};
    return {stamp(is_current(word, s) ? s : 0), word};
}

bool validates(uint64_t word, uint64_t s) {
    return writes(word) ? s == word : s >= 256 && s % 256 <= 128 && version_of(s) == version_of(word);
}

Step release(bool may, uint64_t word, uint64_t next) {
    return may ? Step{{Kind::Done, 0}, next} : Step{{Kind::Mismatch, 0}, word};
}

Step decide(const Entry &call, uint64_t word) {
    const uint64_t s = call.stamp;
    switch (call.name) {
    case TryWrite: return can_write(word) && has_version(word) ? acquire_write(word) : Step{stamp(0), word};
    case TryRead: return !writes(word) && readers(word) < most_readers ? acquire_read(word) : Step{stamp(0), word};
    case WriteLock:
        if (!has_version(word)) return {stamp(0), word};
        return can_write(word) ? acquire_write(word) : Step{{}, word};
    case ReadLock: return !writes(word) && readers(word) < most_readers ? acquire_read(word) : Step{{}, word};
    case Optimistic: return {stamp(writes(word) ? 0 : word & ~readers_mask), word};
    case Validate: return {yes_if(validates(word, s)), word};
    case UnlockWrite: return release(is_held_write(word, s), word, word + writer);
    case UnlockRead: return release(is_held_read(word, s), word, word - 1);
    case Unlock: return s & writer ? release(is_held_write(word, s), word, word + writer)
                                   : release(is_held_read(word, s), word, word - 1);
    case ToWrite: return to_write(word, s);
    case ToRead: return to_read(word, s);
    case ToOptimistic: return to_optimistic(word, s);
    case TryUnlockWrite: return {yes_if(writes(word)), writes(word) ? word + writer : word};
    case TryUnlockRead: return {yes_if(readers(word)), readers(word) ? word - 1 : word};
    case IsWriteLocked: return {yes_if(writes(word)), word};
    case IsReadLocked: return {yes_if(readers(word)), word};
    case ReadCount: return {{Kind::Count, readers(word)}, word};
    default: abort();
    }
}

// Calls whose replies tell that they change nothing, in any state.
bool is_observer(const Entry &call) {
    if (call.last == no_return) return false;
    switch (call.name) {
    case TryWrite: case TryRead: case WriteLock: return call.reply.number == 0;
    case ToWrite: case ToRead: case ToOptimistic:
        return call.reply.number == 0 || call.reply.number == call.stamp;
    case Optimistic: case Validate: case IsWriteLocked: case IsReadLocked: case ReadCount: return true;
    case UnlockWrite: case UnlockRead: case Unlock: return call.reply.kind == Kind::Mismatch;
    case TryUnlockWrite: case TryUnlockRead: return call.reply.kind == Kind::No;
    default: return false;
    }
}

// A configuration: returns before this one have passed; the word; the threads whose open call has taken
// effect.
struct Node {
    uint32_t at, call, parent;
    uint64_t word, taken;
};

struct Key {
    uint32_t at;
    uint64_t word, taken;
    bool operator==(const Key &o) const { return at == o.at && word == o.word && taken == o.taken; }
};

struct Hash {
    size_t operator()(const Key &k) const {
        uint64_t h = k.word * 0x9E3779B97F4A7C15u ^ (k.taken + k.at * 0xC2B2AE3D27D4EB4Fu);
        return h ^ h >> 29;
    }
};

struct Search {
    const vector<Entry> &calls;
    vector<uint32_t> returns;       // the returned calls, in the order of their returns
    vector<vector<uint32_t>> open;  // at each return, the calls that have begun and not returned before
    vector<Node> nodes;
    uint32_t furthest = 0;

    explicit Search(const vector<Entry> &all) : calls(all) {
        for (uint32_t i = 0; i < calls.size(); i++)
            if (calls[i].last != no_return) returns.push_back(i);
        std::sort(returns.begin(), returns.end(), [&](uint32_t a, uint32_t b) {
            return calls[a].last != calls[b].last ? calls[a].last < calls[b].last : a < b;
        });
        vector<uint32_t> begins(calls.size());
        for (uint32_t i = 0; i < calls.size(); i++) begins[i] = i;
        std::sort(begins.begin(), begins.end(),
                  [&](uint32_t a, uint32_t b) { return calls[a].first < calls[b].first; });
        vector<uint32_t> now;
        size_t begun = 0;
        for (uint32_t r : returns) {
            for (; begun < begins.size() && calls[begins[begun]].first <= calls[r].last; begun++)
                now.push_back(begins[begun]);
            open.push_back(now);
            std::sort(open.back().begin(), open.back().end(), [&](uint32_t a, uint32_t b) {
                return calls[a].last != calls[b].last ? calls[a].last < calls[b].last : a < b;
            });
            now.erase(std::find(now.begin(), now.end(), r));
        }
    }

    // The node at which all returns have passed; 0 where there is none, or no more may be looked at.
    uint32_t run(uint64_t most, bool &is_over) {
        std::unordered_set<Key, Hash> seen;
        vector<uint32_t> waiting;
        auto add = [&](Node node) {
            if (!seen.insert({node.at, node.word, node.taken}).second) return;
            furthest = std::max(furthest, node.at);
            nodes.push_back(node);
            waiting.push_back(uint32_t(nodes.size() - 1));
        };
        add({0, no_call, 0, 256, 0});
        for (uint64_t looked = 0; !waiting.empty(); looked++) {
            const uint32_t at = waiting.back();
            waiting.pop_back();
            const Node node = nodes[at];
            if (node.at == returns.size()) return at;
            if (looked == most) {
                is_over = true;
                return 0;
            }
            const Entry &awaited = calls[returns[node.at]];
            if (node.taken >> awaited.thread & 1) {
                add({node.at + 1, no_call, at, node.word, node.taken & ~(uint64_t(1) << awaited.thread)});
                continue;
            }
            expand(at, node, add);
        }
        return 0;
    }

    static constexpr uint32_t no_call = UINT32_MAX;

    template <class Add> void expand(uint32_t at, const Node &node, Add add) {
        vector<Node> next;
        for (uint32_t i : open[node.at]) {
            const Entry &call = calls[i];
            const uint64_t bit = uint64_t(1) << call.thread;
            if (node.taken & bit) continue;
            const Step step = decide(call, node.word);
            const bool may = call.last == no_return ? step.reply.kind != Kind::Waits && step.word != node.word
                                                    : step.reply == call.reply;
            if (!may) continue;
            const Node found = {node.at, i, at, step.word, node.taken | bit};
            if (is_observer(call)) {
                add(found);
                return;
            }
            next.push_back(found);
        }
        for (size_t i = next.size(); i-- > 0;) add(next[i]);
    }

    vector<uint32_t> order(uint32_t at) const {
        vector<uint32_t> found;
        for (; at != 0; at = nodes[at].parent)
            if (nodes[at].call != no_call) found.push_back(nodes[at].call);
        std::reverse(found.begin(), found.end());
        return found;
    }
};

// ---- texts

struct Reader {
    const char *at;
    void want(char c) {
        if (*at != c) {
            std::fprintf(stderr, "explain: expected %c before %.20s\n", c, at);
            std::exit(1);
        }
        at++;
    }
    bool next(char c) { return *at == c && at++; }
    string word() {
        want('"');
        const char *from = at;
        while (*at && *at != '"') at++;
        string found(from, at);
        want('"');
        return found;
    }
    uint64_t number() { return std::strtoull(at, const_cast<char **>(&at), 10); }

    Reply reply() {
        if (next('{')) {
            word();
            want(':');
            const uint64_t count = number();
            want('}');
            return {Kind::Count, count};
        }
        if (*at != '"') return stamp(number());
        const string is = word();
        return {is == "yes" ? Kind::Yes : is == "no" ? Kind::No : is == "done" ? Kind::Done : Kind::Mismatch, 0};
    }

    Entry entry() {
        Entry read;
        want('{');
        do {
            const string key = word();
            want(':');
            if (key == "call") {
                want('[');
                const string name = word();
                for (int i = 0; i < NoName; i++)
                    if (name == names[i]) read.name = Name(i);
                if (next(',')) read.stamp = number();
                want(']');
            } else if (key == "reply") {
                read.reply = reply();
            } else {
                (key == "first" ? read.first : key == "last" ? read.last : read.thread) = number();
            }
        } while (next(','));
        want('}');
        return read;
    }

    vector<Entry> history() {
        vector<Entry> read;
        want('{');
        do {
            const string key = word();
            want(':');
            if (key != "entries") {
                (key == "readers" ? most_readers : key == "versions" ? most_versions : unused) = number();
                continue;
            }
            want('[');
            if (next(']')) continue;
            do read.push_back(entry());
            while (next(','));
            want(']');
        } while (next(','));
        want('}');
        return read;
    }
    uint64_t unused = 0;
};

string text(const Reply &reply) {
    switch (reply.kind) {
    case Kind::Stamp: return std::to_string(reply.number);
    case Kind::Yes: return "\"yes\"";
    case Kind::No: return "\"no\"";
    case Kind::Done: return "\"done\"";
    case Kind::Count: return "{\"count\":" + std::to_string(reply.number) + "}";
    default: return "\"mismatch\"";
    }
}

// Each position becomes 64 moments; the calls that take effect at one stand there in their order.
void write_history(const vector<Entry> &calls, const vector<uint32_t> &order) {
    uint64_t position = 0, place = 0, end = 0, word = 256;
    for (const Entry &call : calls) end = std::max({end, call.first, call.last == no_return ? 0 : call.last});
    string out = "{\"entries\":[";
    for (size_t i = 0; i < order.size(); i++) {
        const Entry &call = calls[order[i]];
        place = call.first > position ? 0 : i ? place + 1 : 0;
        position = std::max(position, call.first);
        const Step step = decide(call, word);
        word = step.word;
        out += string(i ? "," : "") + "{\"call\":[\"" + names[call.name] + "\"";
        if (call.name >= Validate && call.name <= ToOptimistic) out += "," + std::to_string(call.stamp);
        out += "],\"first\":" + std::to_string(64 * call.first) + ",\"last\":"
            + std::to_string(64 * (call.last == no_return ? end : call.last) + 63) + ",\"point\":"
            + std::to_string(64 * position + place) + ",\"reply\":" + text(step.reply) + ",\"thread\":"
            + std::to_string(call.thread) + "}";
    }
    std::printf("%s],\"format\":1,\"readers\":%llu,\"versions\":%llu,\"width\":0}\n", out.c_str(),
                (unsigned long long)most_readers, (unsigned long long)most_versions);
}

} // namespace

int main(int count, char **words) {
    const bool is_timed = count > 1 && !std::strcmp(words[1], "--time");
    const bool is_bounded = count > 2 && !std::strcmp(words[1], "--most");
    string input;
    char some[65536];
    for (size_t n; (n = std::fread(some, 1, sizeof some, stdin)) > 0;) input.append(some, n);
    const vector<Entry> calls = Reader{input.c_str()}.history();
    const auto begin = std::chrono::steady_clock::now();
    Search search(calls);
    bool is_over = false;
    const uint32_t end = search.run(is_bounded ? std::strtoull(words[2], nullptr, 10) : 4000000, is_over);
    const double seconds = std::chrono::duration<double>(std::chrono::steady_clock::now() - begin).count();
    const bool is_found = !search.returns.empty() ? end != 0 : true;
    if (is_timed)
        std::printf("%zu calls, %zu configurations, %.3f s\n", calls.size(), search.nodes.size(), seconds);
    else if (is_found)
        write_history(calls, search.order(end));
    else
        std::printf("%s %u\n", is_over ? "undecided" : "stuck", search.returns[search.furthest]);
    return is_found ? 0 : 1;
}
