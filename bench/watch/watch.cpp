// Judges a stream of a lock's events of layout 1 while it comes, without proofs: what stamped_watch is compared with.
//
//     watch [--most N] [--ahead N] < run.events      writes ok N, stuck E, undecided E or bad E
//     watch --read < run.events                      only reads the events, and writes how many there are
#include "../common/lock.h"
#include <algorithm>
#include <cstring>
#include <vector>

namespace {

using std::vector;

constexpr uint8_t first_return = 32, withdrawn = 48;
constexpr uint64_t no_end = UINT64_MAX;
constexpr size_t enough = 1024; // so many events at least are let go of at a time

struct Event {
    uint8_t kind, lane;
    uint64_t number, end; // the event that ends the call which begins here, once that is known
    bool begins() const { return kind < first_return; }
};

enum How { RETURNS, WITHDRAWS, NEVER };

struct Open {
    call asks;
    How how;
    reply told;
    uint64_t end;
    bool is_unchanging; // its reply tells that it changes nothing
    call does;          // alike calls do the same, where they change the word
};

struct Position {
    uint64_t word, in_effect; // a bit for each lane whose open call has taken effect
    bool operator==(const Position &other) const { return word == other.word && in_effect == other.in_effect; }
};

bool is_same(const reply &one, const reply &other) {
    return one.answer == other.answer && one.number == other.number;
}

bool is_same(const call &one, const call &other) { return one.kind == other.kind && one.stamp == other.stamp; }

reply reply_of(const Event &event) {
    const enum answer answers[] = {STAMP, YES, NO, DONE, MISMATCH, COUNT};
    return {answers[event.kind - first_return], event.number};
}

bool changes_nothing(const call &asks, const reply &told) {
    switch (asks.kind) {
    case TRY_WRITE: case TRY_READ: case WRITE_LOCK: return told.number == 0;
    case READ_LOCK: return false;
    case TO_WRITE: case TO_READ: case TO_OPTIMISTIC: return told.number == 0 || told.number == asks.stamp;
    case UNLOCK_WRITE: case UNLOCK_READ: case UNLOCK: return told.answer == MISMATCH;
    case TRY_UNLOCK_WRITE: case TRY_UNLOCK_READ: return told.answer == NO;
    default: return true;
    }
}

// Releases of read mode by stamps of one version do the same, and acquisitions whether they wait or not.
call doing(const call &asks) {
    const uint64_t holder = asks.stamp & (VERSION - 1);
    switch (asks.kind) {
    case WRITE_LOCK: return {TRY_WRITE, 0};
    case READ_LOCK: return {TRY_READ, 0};
    case UNLOCK_READ: case UNLOCK: case TO_OPTIMISTIC:
        if (holder == 0 || holder >= WRITER) return asks;
        return {asks.kind == TO_OPTIMISTIC ? TO_OPTIMISTIC : UNLOCK_READ, observed(asks.stamp)};
    default: return asks;
    }
}

int first_lane(uint64_t lanes) { return __builtin_ctzll(lanes); }

enum Progress { GOING, DEAD, TOO_MANY };

// The positions that are possible after the events seen so far.
struct Watch {
    struct limits most = {0, 0};
    Open open[64];
    uint64_t busy = 0, unchanging = 0; // the lanes of open calls, and of those that change nothing
    vector<Position> positions = {{VERSION, 0}};

    // The call takes effect in the position, if it may.
    bool takes_effect(Position &position, int lane) const {
        const Open &call = open[lane];
        const decision made = decide(most, position.word, call.asks);
        if (made.effect == WAIT || call.how == WITHDRAWS) return false;
        if (call.how == RETURNS ? !is_same(made.reply, call.told) : made.effect == ANSWER) return false;
        if (made.effect == CHANGE) position.word = made.word;
        position.in_effect |= UINT64_C(1) << lane;
        return true;
    }

    void settle(Position &position) const {
        for (uint64_t rest = unchanging & ~position.in_effect; rest; rest &= rest - 1)
            takes_effect(position, first_lane(rest));
    }

    // Of calls that are alike the one that returns sooner takes effect first.
    bool gives_way(const Position &position, int lane) const {
        const Open &call = open[lane];
        for (uint64_t rest = busy & ~position.in_effect; rest; rest &= rest - 1) {
            const int other = first_lane(rest);
            const Open &ahead = open[other];
            if (!is_same(call.does, ahead.does) || call.how != ahead.how) continue;
            if (call.how == NEVER ? other < lane : ahead.end < call.end && is_same(call.told, ahead.told)) return true;
        }
        return false;
    }

    static void add(vector<Position> &list, const Position &position) {
        if (std::find(list.begin(), list.end(), position) == list.end()) list.push_back(position);
    }

    void begins(int lane, const Open &call) {
        const uint64_t bit = UINT64_C(1) << lane;
        open[lane] = call;
        busy |= bit;
        unchanging = call.is_unchanging ? unchanging | bit : unchanging & ~bit;
        if (call.is_unchanging)
            for (Position &position : positions) takes_effect(position, lane);
    }

    Progress returns(int lane, uint64_t most_positions) {
        const uint64_t bit = UINT64_C(1) << lane;
        const auto has_it = [=](const Position &position) { return (position.in_effect & bit) != 0; };
        if (!std::all_of(positions.begin(), positions.end(), has_it)) {
            vector<Position> done, layer = positions, next;
            for (; !layer.empty(); layer.swap(next), next.clear()) {
                for (const Position &position : layer) {
                    if (has_it(position)) add(done, position);
                    else expand(position, next);
                    if (next.size() > most_positions) return TOO_MANY;
                }
            }
            positions.swap(done);
        }
        for (Position &position : positions) position.in_effect &= ~bit;
        ended(lane);
        return positions.empty() ? DEAD : GOING;
    }

    void expand(const Position &position, vector<Position> &next) const {
        for (uint64_t rest = busy & ~unchanging & ~position.in_effect; rest; rest &= rest - 1) {
            const int lane = first_lane(rest);
            Position after = position;
            if (!takes_effect(after, lane) || gives_way(position, lane)) continue;
            settle(after);
            add(next, after);
        }
    }

    void ended(int lane) { busy &= ~(UINT64_C(1) << lane), unchanging &= ~(UINT64_C(1) << lane); }
};

struct Verdict {
    const char *word; // none where nothing is found
    uint64_t number;
};

class Judge {
    Watch base, watch, spare;
    vector<Event> events; // from `first` on, and base has seen none of them
    uint64_t first = 0, begun_at[64], open_lanes = 0;
    size_t seen = 0, place = 0, reach = 0; // spare has seen the events before place, and its calls end before reach
    const uint64_t most, ahead;

    Progress step(Watch &to, const Event &event, size_t known) const {
        if (event.kind == withdrawn) return to.ended(event.lane), GOING;
        if (!event.begins()) return to.returns(event.lane, most);
        Open call = {{kind(event.kind), event.number}, NEVER, {STAMP, 0}, event.end, false, {}};
        call.does = doing(call.asks);
        if (event.end != no_end && event.end - first < known) {
            const Event &end = events[event.end - first];
            call.how = end.kind == withdrawn ? WITHDRAWS : RETURNS;
            if (call.how == RETURNS) call.told = reply_of(end);
            call.is_unchanging = call.how == RETURNS && changes_nothing(call.asks, call.told);
        }
        to.begins(event.lane, call);
        return GOING;
    }

    // How many events are explained, where no more than these are known.
    size_t judge_rest(Watch start, size_t from, size_t known, Progress &progress) const {
        progress = GOING;
        for (size_t k = from; k < known; k++)
            if ((progress = step(start, events[k], known)) != GOING) return k;
        return known;
    }

    Verdict find_stuck(size_t low) const {
        for (size_t high = events.size(); low + 1 < high;) {
            const size_t middle = low + (high - low) / 2;
            Progress progress;
            judge_rest(base, 0, middle, progress);
            if (progress == TOO_MANY) return {"undecided", first + low};
            (progress == GOING ? low : high) = middle;
        }
        return {"stuck", first + low};
    }

    Verdict found(Progress progress, size_t explained) const {
        if (progress == GOING) return {nullptr, 0};
        return progress == DEAD ? find_stuck(explained) : Verdict{"undecided", first + explained};
    }

    void let_go() {
        const size_t fresh = seen - place;
        if (seen < place + reach || fresh < enough || events.size() - seen > fresh) return;
        base = std::move(spare);
        spare = watch;
        events.erase(events.begin(), events.begin() + long(place));
        first += place, seen = fresh, place = fresh, reach = events.size() - seen;
    }

public:
    Judge(struct limits limits, uint64_t most_positions, uint64_t most_ahead)
        : most(most_positions), ahead(most_ahead) {
        base.most = watch.most = spare.most = limits;
    }

    uint64_t count() const { return first + events.size(); }

    bool may_come(const Event &event) const { return event.begins() != (open_lanes >> event.lane & 1); }

    Verdict push(const Event &event) {
        if (event.begins()) begun_at[event.lane] = count();
        else events[begun_at[event.lane] - first].end = count();
        open_lanes ^= UINT64_C(1) << event.lane;
        events.push_back(event);
        for (; seen < events.size(); seen++) {
            let_go();
            const Event &front = events[seen];
            if (front.begins() && front.end == no_end)
                return events.size() - seen > ahead ? Verdict{"undecided", first + seen} : Verdict{nullptr, 0};
            const Progress progress = step(watch, front, events.size());
            if (progress != GOING) return found(progress, seen);
        }
        return {nullptr, 0};
    }

    // What is found where no more events come.
    Verdict rest() const {
        Progress progress;
        const size_t explained = judge_rest(watch, seen, events.size(), progress);
        return found(progress, explained);
    }
};

uint64_t number_at(const unsigned char *bytes) {
    uint64_t number;
    std::memcpy(&number, bytes, 8);
    return number;
}

bool event_at(const unsigned char *bytes, Event &event) {
    const uint64_t head = number_at(bytes), kind = head & 255;
    event = {uint8_t(kind), uint8_t(head >> 8), number_at(bytes + 8), no_end};
    const bool has_number = (VALIDATE <= kind && kind <= TO_OPTIMISTIC) || kind == 32 || kind == 37;
    return (kind <= READ_COUNT || (32 <= kind && kind <= 37) || kind == withdrawn) && head >> 14 == 0
        && (has_number || event.number == 0);
}

int told(const Verdict &verdict) {
    printf("%s %llu\n", verdict.word, (unsigned long long)verdict.number);
    return std::strcmp(verdict.word, "ok") != 0;
}

} // namespace

int main(int count, char **words) {
    uint64_t most = 1000000, ahead = 4194304;
    bool only_reads = false;
    for (int i = 1; i < count; i++) {
        if (!std::strcmp(words[i], "--read")) only_reads = true;
        else if (!std::strcmp(words[i], "--most") && i + 1 < count) most = strtoull(words[++i], nullptr, 10);
        else if (!std::strcmp(words[i], "--ahead") && i + 1 < count) ahead = strtoull(words[++i], nullptr, 10);
        else return 2;
    }
    static unsigned char bytes[1 << 16];
    if (fread(bytes, 1, 16, stdin) != 16 || std::memcmp(bytes, "stmp\1\1", 6)) return 2;
    Judge judge({number_at(bytes) >> 48, number_at(bytes + 8)}, most, ahead);
    uint64_t events = 0, calls = 0;
    for (size_t n; (n = fread(bytes, 1, sizeof bytes, stdin)) > 0;) {
        for (size_t at = 0; at < n; at += 16, events++) {
            Event event;
            if (at + 16 > n || !event_at(bytes + at, event)) return told({"bad", events});
            calls += event.begins(), calls -= event.kind == withdrawn;
            if (only_reads) continue;
            if (!judge.may_come(event)) return told({"bad", events});
            const Verdict found = judge.push(event);
            if (found.word) return told(found);
        }
    }
    if (only_reads) return told({"ok", events});
    const Verdict found = judge.rest();
    return told(found.word ? found : Verdict{"ok", calls});
}
