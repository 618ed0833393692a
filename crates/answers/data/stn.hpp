// A log of a timed plan, in a program of yours: one `stn shell` that is asked line by line.
//
//     stn::Shell plan("out/stn", "t.log", 1);
//     plan.ask("done s1 " + stn::time_text(2000));
//     for (const std::string &line : plan.ask("next " + stn::time_text(2500))) std::cout << line << '\n';
//
// A refusal is thrown as Refused, and changes nothing. When a device or memory failed, Failed is thrown with what the shell said
// on standard error, and the shell has ended: whether its last change is in the log, `records` in a new shell says. An answer may
// be waited for without end, as while another program holds the log; a limit of your own is yours to set. Any number of shells can
// run at once; one shell belongs to one thread at a time.
#pragma once
#include <fcntl.h>
#include <poll.h>
#include <spawn.h>
#include <sys/socket.h>
#include <sys/wait.h>
#include <unistd.h>

#include <cerrno>
#include <cstdio>
#include <cstdlib>
#include <cstring>
#include <stdexcept>
#include <string>
#include <utility>
#include <vector>

extern "C" char **environ;

namespace stn {

// A command was refused, by this code; `place` is what the refusal names, if anything.
struct Refused : std::runtime_error {
    int code;
    std::string place;
    explicit Refused(const std::string &line) : std::runtime_error(line), code(std::atoi(line.c_str() + 8)) {
        std::size_t gap = line.find(' ', 8);
        if (gap != std::string::npos) place = line.substr(gap + 1);
    }
};

// Whether an answer that begins with this line is a refusal. What `explain` prints of a refusal is none.
inline bool is_refusal(const std::string &line) {
    return line.rfind("refused ", 0) == 0 && line.find(':') == std::string::npos;
}

// A device or memory failed, and the shell has ended. The text is the shell's own, such as `fault file`, or the system's.
struct Failed : std::runtime_error {
    using std::runtime_error::runtime_error;
};

// A time in milliseconds, as the commands read it.
inline std::string time_text(long long millis) {
    char text[32];
    long long size = millis < 0 ? -millis : millis;
    std::snprintf(text, sizeof text, "%s%lld.%03lld", millis < 0 ? "-" : "", size / 1000, size % 1000);
    return text;
}

// A time that was printed, in milliseconds. An open side, `*`, is none: it is thrown as std::invalid_argument.
inline long long millis_of(const std::string &text) {
    std::string digits;
    for (char byte : text) {
        if (byte != '.') digits += byte;
    }
    return std::stoll(digits);
}

// An open end of a socket or a pipe.
class End {
    int number;

  public:
    explicit End(int number) : number(number) {}
    End(End &&other) : number(std::exchange(other.number, -1)) {}
    ~End() { shut(); }
    int get() const { return number; }
    void shut() {
        if (number >= 0) close(std::exchange(number, -1));
    }
    // Appends what can be read at once, or waits for some. Whether there can be more.
    bool append_to(std::string &text) {
        char bytes[4096];
        ssize_t count;
        do count = read(number, bytes, sizeof bytes);
        while (count < 0 && errno == EINTR);
        if (count > 0) text.append(bytes, count);
        return count > 0;
    }
};

// Both ends of a stream. No program that is begun later gets one of them.
struct Ends {
    End ours, theirs;
    static Ends socket() {
        int ends[2];
        if (socketpair(AF_UNIX, SOCK_STREAM | SOCK_CLOEXEC, 0, ends) != 0) throw Failed(std::strerror(errno));
        return {End(ends[0]), End(ends[1])};
    }
    static Ends pipe() {
        int ends[2];
        if (pipe2(ends, O_CLOEXEC) != 0) throw Failed(std::strerror(errno));
        return {End(ends[0]), End(ends[1])};
    }
};

// One shell on the log of a site.
class Shell {
    Ends lines = Ends::socket(), errors = Ends::pipe();
    std::string answered, told;
    pid_t process = 0;
    int status = -1;

    // Waits until the shell answers, says something on standard error, or ends. Whether it can answer more.
    bool hear() {
        pollfd ends[] = {{lines.ours.get(), POLLIN, 0}, {errors.ours.get(), POLLIN, 0}};
        if (poll(ends, 2, -1) < 0) return errno == EINTR;
        if (ends[1].revents && !errors.ours.append_to(told)) errors.ours.shut();
        return !ends[0].revents || lines.ours.append_to(answered);
    }

    // Takes the next line of an answer. Whether there is one: none where the shell has ended.
    bool take_line(std::string &line) {
        std::size_t end;
        while ((end = answered.find('\n')) == std::string::npos) {
            if (!hear()) return false;
        }
        line = answered.substr(0, end);
        answered.erase(0, end + 1);
        return true;
    }

    // Hands a line to the shell. One that has ended takes none: what it printed last says why.
    void give(const std::string &text) {
        std::size_t given = 0;
        while (given < text.size()) {
            ssize_t count = send(lines.ours.get(), text.data() + given, text.size() - given, MSG_NOSIGNAL);
            if (count < 0 && errno != EINTR) return;
            if (count > 0) given += count;
        }
    }

    // Why the shell has ended, in its own words.
    Failed failure() {
        end();
        std::size_t size = told.find_last_not_of('\n') + 1;
        return Failed(size > 0 ? told.substr(0, size) : "the shell has ended");
    }

  public:
    Shell(const std::string &program, const std::string &log, int site) {
        std::string words[] = {"stn", "shell", "--", log, std::to_string(site)};
        char *list[] = {words[0].data(), words[1].data(), words[2].data(), words[3].data(), words[4].data(), nullptr};
        posix_spawn_file_actions_t ends;
        int error = posix_spawn_file_actions_init(&ends);
        if (error != 0) throw Failed(std::strerror(error));
        posix_spawn_file_actions_adddup2(&ends, lines.theirs.get(), 0);
        posix_spawn_file_actions_adddup2(&ends, lines.theirs.get(), 1);
        posix_spawn_file_actions_adddup2(&ends, errors.theirs.get(), 2);
        error = posix_spawn(&process, program.c_str(), &ends, nullptr, list, environ);
        posix_spawn_file_actions_destroy(&ends);
        if (error != 0) process = 0;
        if (error != 0) throw Failed(program + ": " + std::strerror(error));
        lines.theirs.shut();
        errors.theirs.shut();
    }
    Shell(const Shell &) = delete;
    Shell &operator=(const Shell &) = delete;
    ~Shell() { end(); }

    // The lines that a command prints. A negative time as a word of its own comes after the word `--`.
    std::vector<std::string> ask(const std::string &words) {
        if (process == 0) throw Failed("the shell has ended");
        if (words.find('\n') != std::string::npos) throw std::invalid_argument("a command is one line");
        std::size_t first = words.find_first_not_of(" \t\r");
        bool is_command = first != std::string::npos && words[first] != '#';
        if (!is_command) throw std::invalid_argument("an empty line and a comment have no answer");
        std::vector<std::string> answer;
        std::string line;
        bool is_whole = true;
        told.clear();
        give(words + '\n');
        while ((is_whole = take_line(line)) && !line.empty()) answer.push_back(line);
        if (!is_whole) end();
        if (!answer.empty() && is_refusal(answer[0])) throw Refused(answer[0]);
        if (!is_whole) throw failure();
        return answer;
    }

    // What the shell said on standard error since the last command began, as far as it has come.
    const std::string &said() const { return told; }

    // Ends the shell: its status, 0 where nothing was refused and nothing failed.
    int end() {
        if (process == 0) return status;
        lines.ours.shut();
        while (errors.ours.get() >= 0 && errors.ours.append_to(told)) {
        }
        errors.ours.shut();
        int code = 0;
        while (waitpid(process, &code, 0) < 0 && errno == EINTR) {
        }
        process = 0;
        status = WIFEXITED(code) ? WEXITSTATUS(code) : -1;
        return status;
    }
};

}  // namespace stn
