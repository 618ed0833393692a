// The work of the benchmark `windows` by hand: reads a script of one site over a bare plan, whose commands add bounds and then ask for
// one report, and prints what the program prints. Two searches find the latest and the earliest time of each event. A script of any
// other form, and one whose bounds contradict each other, is refused with status 1.
#include <cstdint>
#include <cstdio>
#include <cstdlib>
#include <cstring>
#include <string>
#include <vector>

namespace {

constexpr int64_t HORIZON = 31'536'000'000;

// A bound as one of its two events has it: how much later and how much earlier the other may come at most.
struct Link {
    uint32_t other;
    int64_t later;
    int64_t earlier;
};

struct Bound {
    uint32_t from;
    uint32_t to;
    int64_t lo;
    int64_t hi;
};

// All links, event after event; those of an event stand between its place and the next.
struct Network {
    std::vector<uint32_t> places;
    std::vector<Link> links;
};

[[noreturn]] void refuse(const char *what) {
    std::fprintf(stderr, "windows: %s\n", what);
    std::exit(1);
}

class Script {
  public:
    explicit Script(std::string given) : text(std::move(given)), at(text.data()), end(at + text.size()) {}

    bool is_over() const { return at == end; }

    void word(const char *wanted) {
        size_t length = std::strlen(wanted);
        if (static_cast<size_t>(end - at) < length || std::memcmp(at, wanted, length) != 0) refuse("another word is wanted");
        at += length;
    }

    bool is_next(const char *wanted) const {
        size_t length = std::strlen(wanted);
        return static_cast<size_t>(end - at) >= length && std::memcmp(at, wanted, length) == 0;
    }

    int64_t number() {
        int64_t found = 0;
        if (at == end || *at < '0' || *at > '9') refuse("a number is wanted");
        while (at != end && *at >= '0' && *at <= '9') found = 10 * found + (*at++ - '0');
        return found;
    }

    uint32_t event(uint32_t events) {
        if (at == end) refuse("an event is wanted");
        char kind = *at++;
        if (kind == 'z') return 0;
        if (kind != 's' && kind != 'e') refuse("an event is wanted");
        int64_t step = number();
        int64_t found = 2 * step - (kind == 's' ? 1 : 0);
        if (step < 1 || found > events) refuse("no such event");
        return static_cast<uint32_t>(found);
    }

    int64_t time() {
        bool is_negative = is_next("-");
        if (is_negative) ++at;
        int64_t found = 1000 * number();
        word(".");
        const char *before = at;
        int64_t millis = number();
        if (at - before != 3) refuse("a time has three digits after its dot");
        found += millis;
        if (found > HORIZON) refuse("a time is beyond the horizon");
        return is_negative ? -found : found;
    }

  private:
    std::string text;
    const char *at;
    const char *end;
};

std::string read_all() {
    std::string text;
    char piece[65536];
    while (size_t count = std::fread(piece, 1, sizeof piece, stdin)) text.append(piece, count);
    return text;
}

void append_number(std::string &out, int64_t number) {
    char digits[24];
    char *front = digits + sizeof digits;
    do {
        *--front = static_cast<char>('0' + number % 10);
        number /= 10;
    } while (number != 0);
    out.append(front, digits + sizeof digits - front);
}

void append_time(std::string &out, int64_t millis) {
    append_number(out, millis / 1000);
    int64_t rest = millis % 1000;
    out += '.';
    out += static_cast<char>('0' + rest / 100);
    out += static_cast<char>('0' + rest / 10 % 10);
    out += static_cast<char>('0' + rest % 10);
}

Network network_of(uint32_t events, const std::vector<Bound> &bounds) {
    Network made;
    made.places.assign(events + 2, 0);
    for (const Bound &bound : bounds) {
        ++made.places[bound.from + 1];
        ++made.places[bound.to + 1];
    }
    for (uint32_t event = 0; event <= events; ++event) made.places[event + 1] += made.places[event];
    made.links.resize(2 * bounds.size());
    std::vector<uint32_t> next = made.places;
    for (const Bound &bound : bounds) {
        made.links[next[bound.from]++] = {bound.to, bound.hi, -bound.lo};
        made.links[next[bound.to]++] = {bound.from, -bound.lo, bound.hi};
    }
    return made;
}

// The distances from the origin, by links in one direction or in the other: sweeps back and forth, until nothing changes.
std::vector<int64_t> distances(const Network &network, int64_t Link::*weight) {
    uint32_t count = static_cast<uint32_t>(network.places.size()) - 1;
    std::vector<int64_t> found(count, HORIZON);
    found[0] = 0;
    for (uint32_t sweep = 0; sweep <= count; ++sweep) {
        bool has_changed = false;
        for (uint32_t step = 0; step < count; ++step) {
            uint32_t event = sweep % 2 == 0 ? step : count - 1 - step;
            int64_t own = found[event];
            for (uint32_t place = network.places[event]; place < network.places[event + 1]; ++place) {
                const Link &link = network.links[place];
                int64_t by_link = own + link.*weight;
                if (by_link < found[link.other]) {
                    found[link.other] = by_link;
                    has_changed = true;
                }
            }
        }
        if (found[0] < 0) break;
        if (!has_changed) return found;
    }
    refuse("the bounds contradict each other");
}

}  // namespace

int main() {
    Script script(read_all());
    script.word("steps ");
    uint32_t steps = static_cast<uint32_t>(script.number());
    uint32_t events = 2 * steps;
    script.word("\nsites 1\n");
    std::string out;
    std::vector<Bound> bounds;
    while (!script.is_next("1 report\n")) {
        script.word("1 add ");
        Bound bound{};
        bound.from = script.event(events);
        script.word(" ");
        bound.to = script.event(events);
        script.word(" ");
        bound.lo = script.time();
        script.word(" ");
        bound.hi = script.time();
        script.word("\n");
        if (bound.from == bound.to || bound.hi < bound.lo) refuse("no bound");
        bounds.push_back(bound);
        out += "added 1.";
        append_number(out, static_cast<int64_t>(bounds.size()));
        out += '\n';
    }
    script.word("1 report\n");
    if (!script.is_over()) refuse("more than one report");

    size_t records = bounds.size();
    for (uint32_t event = 1; event <= events; ++event) bounds.push_back({0, event, 0, HORIZON});
    Network network = network_of(events, bounds);
    std::vector<int64_t> latest = distances(network, &Link::later);
    std::vector<int64_t> earliest = distances(network, &Link::earlier);

    out += "plan ";
    append_number(out, steps);
    out += " steps ";
    append_number(out, events);
    out += " events\nrecords ";
    append_number(out, static_cast<int64_t>(records));
    out += " live 0 withdrawn\nok\n";
    for (uint32_t event = 1; event <= events; ++event) {
        out += event % 2 == 1 ? 's' : 'e';
        append_number(out, (event + 1) / 2);
        out += ' ';
        append_time(out, -earliest[event]);
        out += ' ';
        append_time(out, latest[event]);
        out += '\n';
    }
    std::fwrite(out.data(), 1, out.size(), stdout);
    return 0;
}
