// Tries shells that run at once, and shells that fail: `embedded PROGRAM LOG OTHER`, where both logs are made by `stn bare`.
#include <iostream>

#include "../examples/stn.hpp"

// The first line of what a call throws, or what it prints if it throws nothing.
template <class Call> void show(const char *what, Call call) {
    std::string said = "nothing was thrown";
    try {
        call();
    } catch (const stn::Refused &refused) {
        said = std::string("Refused: ") + refused.what();
    } catch (const stn::Failed &failed) {
        said = std::string("Failed: ") + failed.what();
    } catch (const std::invalid_argument &) {
        said = "invalid_argument";
    }
    std::cout << what << ": " << said.substr(0, said.find('\n')) << '\n';
}

// The first shell ends while the second still runs, and each answers for its own log.
void run_two(const std::string &program, const std::string &log, const std::string &other) {
    stn::Shell first(program, log, 1), second(program, other, 2);
    std::cout << first.ask("add s1 e1 --lo=1")[0] << ' ' << second.ask("add s1 e1 --lo=2")[0] << '\n';
    std::cout << first.end() << ' ' << second.ask("records").size() << ' ' << second.end() << '\n';
}

void fail(const std::string &program, const std::string &log) {
    show("no program", [&] { stn::Shell plan(program + ".none", log, 1); });
    stn::Shell missing(program, log + ".none", 1);
    show("no log", [&] { missing.ask("report"); });
    show("asked again", [&] { missing.ask("report"); });
    std::cout << "status " << missing.end() << ' ' << missing.end() << '\n';
    stn::Shell plan(program, log, 1);
    show("two lines", [&] { plan.ask("report\nreport"); });
    show("a comment", [&] { plan.ask(" # report"); });
    std::cout << plan.ask("explain 4")[0] << '\n';
    show("a refusal", [&] { plan.ask("add s1 s1"); });
    plan.end();
    show("after its end", [&] { plan.ask("report"); });
}

int main(int count, char **words) {
    if (count != 4) return 2;
    run_two(words[1], words[2], words[3]);
    fail(words[1], words[2]);
}
