// A plan of one step in a C++ program: `embedded PROGRAM LOG`, where LOG is made by `stn bare LOG 1 1`.
#include <iostream>

#include "stn.hpp"

int main(int count, char **words) {
    if (count != 3) return 2;
    stn::Shell plan(words[1], words[2], 1);
    plan.ask("add s1 e1 --lo=" + stn::time_text(5000) + " --hi=" + stn::time_text(7000));
    std::cout << plan.ask("done s1 " + stn::time_text(2000))[0] << '\n';
    for (const std::string &line : plan.ask("ready " + stn::time_text(2500))) std::cout << line << '\n';
    try {
        plan.ask("done e1 2.0005");
    } catch (const stn::Refused &refusal) {
        std::cout << "code " << refusal.code << '\n';
    }
    std::cout << "status " << plan.end() << '\n';
}
