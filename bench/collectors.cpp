// Collectors that ask for their lists and report: collectors PORT MINUTES SPEED COLLECTORS JOBS
// Each has a connection and asks on it for one thing after the other: twice a minute for its list of each job, and each other time it reports the targets of
// these lists, as soon as it has them. A minute takes 60 seconds / SPEED. A connection that ends is made again, and what was not answered is asked again.
// Prints lists, reports, those booked, answers of a refusal, connections that ended with a question open, the median, 99 %, 99.9 % and the longest of all times
// from a question to the end of its answer, and how far a collector was behind its time at the most; times are in milliseconds.
#include <algorithm>
#include <arpa/inet.h>
#include <cerrno>
#include <chrono>
#include <cstdio>
#include <cstdlib>
#include <cstring>
#include <deque>
#include <netinet/tcp.h>
#include <string>
#include <sys/epoll.h>
#include <sys/socket.h>
#include <unistd.h>
#include <vector>

#include "answers.h"

using Clock = std::chrono::steady_clock;

static double seconds_since(Clock::time_point began) { return std::chrono::duration<double>(Clock::now() - began).count(); }

struct Collector {
    std::string name;
    int socket = -1;
    bool is_connected = false, is_open = false, reports = false;
    double due = 0, asked = 0;
    int halves = 0;
    std::deque<std::string> questions;
    std::string answer;
};

static int port, poller;

static void watch(Collector &it, size_t place, int how, uint32_t what) {
    epoll_event event{};
    event.events = what;
    event.data.u64 = place;
    epoll_ctl(poller, how, it.socket, &event);
}

// Begins a connection; it is written to once it is there.
static void begin_connection(Collector &it, size_t place) {
    it.socket = socket(AF_INET, SOCK_STREAM | SOCK_NONBLOCK, 0);
    it.is_connected = false;
    int yes = 1;
    sockaddr_in to{};
    to.sin_family = AF_INET;
    to.sin_port = htons(port);
    to.sin_addr.s_addr = htonl(INADDR_LOOPBACK);
    if (it.socket < 0 || (connect(it.socket, reinterpret_cast<sockaddr *>(&to), sizeof to) != 0 && errno != EINPROGRESS)) {
        perror("collectors");
        exit(1);
    }
    setsockopt(it.socket, IPPROTO_TCP, TCP_NODELAY, &yes, sizeof yes);
    watch(it, place, EPOLL_CTL_ADD, EPOLLOUT);
}

static std::string field(const std::string &answer, const char *name) {
    size_t at = answer.find(name);
    if (at == std::string::npos) return "";
    at += strlen(name);
    return answer.substr(at, answer.find("\r\n", at) - at);
}

static void add_reports(Collector &it, const std::string &list) {
    static const std::string mark = "\"__meta_allocator_target\":\"";
    std::string front = "{\"collector\":" + field(list, "x-collector: ") + ",\"number\":" + field(list, "x-allocation-number: ") + ",\"round\":" + field(list, "x-scrape-round: ") +
        ",\"epoch\":" + field(list, "x-allocator-epoch: ") + ",\"up\":true,\"samples\":900,\"target\":";
    for (size_t at = list.find(mark); at != std::string::npos; at = list.find(mark, at)) {
        at += mark.size();
        std::string body = front + list.substr(at, list.find('"', at) - at) + "}";
        it.questions.push_back("POST /reports HTTP/1.1\r\nhost: localhost\r\ncontent-type: application/json\r\ncontent-length: " + std::to_string(body.size()) + "\r\n\r\n" + body);
    }
}

int main(int count, char **words) {
    if (count != 6) {
        fprintf(stderr, "usage: collectors PORT MINUTES SPEED COLLECTORS JOBS\n");
        return 2;
    }
    port = atoi(words[1]);
    int halves = 2 * atoi(words[2]), jobs = atoi(words[5]);
    double half = 30 / atof(words[3]);
    size_t collectors = atoi(words[4]), working = collectors;
    long lists = 0, reports = 0, booked = 0, refused = 0, ended = 0;
    // (a place for each tenth of a millisecond, and the last for all above)
    std::vector<long> times(100'001);
    double longest = 0, behind = 0;
    poller = epoll_create1(0);
    std::vector<Collector> all(collectors);
    for (size_t i = 0; i < collectors; i++) {
        all[i].name = "c" + std::to_string(i);
        all[i].due = half * i / collectors;
    }
    auto began = Clock::now();
    auto end = [&](Collector &it) {
        close(it.socket);
        it.socket = -1;
        it.is_connected = false;
    };
    auto send = [&](Collector &it, size_t place) {
        const std::string &question = it.questions.front();
        it.answer.clear();
        if (it.socket >= 0 && write(it.socket, question.data(), question.size()) == ssize_t(question.size())) return;
        if (it.socket >= 0) {
            ended++;
            end(it);
        }
        begin_connection(it, place);
    };
    auto next = [&](Collector &it, size_t place) {
        double now = seconds_since(began);
        if (it.questions.empty() && it.halves < halves && now >= it.due) {
            behind = std::max(behind, now - it.due);
            it.reports = it.halves % 2;
            for (int job = 0; job < jobs; job++)
                it.questions.push_back("GET /jobs/job-" + std::to_string(job) + "/targets?collector_id=" + it.name + " HTTP/1.1\r\nhost: localhost\r\n\r\n");
            it.due += half;
            it.halves++;
        }
        if (it.questions.empty()) {
            if (it.halves == halves && it.due >= 0) {
                it.due = -1;
                working--;
            }
            return;
        }
        it.asked = now;
        it.is_open = true;
        send(it, place);
    };
    auto answered = [&](Collector &it, size_t place) {
        double took = seconds_since(began) - it.asked;
        times[std::min<size_t>(took * 10'000, times.size() - 1)]++;
        longest = std::max(longest, took);
        bool is_list = it.questions.front()[0] == 'G', is_good = it.answer.compare(9, 3, "200") == 0;
        refused += !is_good;
        lists += is_list;
        reports += !is_list;
        booked += !is_list && it.answer.find("\"Booked\"") != std::string::npos;
        if (is_list && is_good && it.reports) add_reports(it, it.answer);
        it.questions.pop_front();
        it.is_open = false;
        next(it, place);
    };
    std::vector<epoll_event> events(256);
    while (working > 0) {
        double now = seconds_since(began), soonest = 0.1;
        for (size_t i = 0; i < collectors; i++)
            if (!all[i].is_open && all[i].due >= 0) {
                if (now >= all[i].due || all[i].halves == halves) next(all[i], i);
                else soonest = std::min(soonest, all[i].due - now);
            }
        int ready = epoll_wait(poller, events.data(), events.size(), int(soonest * 1000));
        for (int i = 0; i < ready; i++) {
            size_t place = events[i].data.u64;
            Collector &it = all[place];
            if (!it.is_connected) {
                int error = 0;
                socklen_t size = sizeof error;
                getsockopt(it.socket, SOL_SOCKET, SO_ERROR, &error, &size);
                if (error != 0) {
                    fprintf(stderr, "collectors: no connection: %s\n", strerror(error));
                    return 1;
                }
                it.is_connected = true;
                watch(it, place, EPOLL_CTL_MOD, EPOLLIN);
                send(it, place);
                continue;
            }
            char bytes[65536];
            ssize_t came = read(it.socket, bytes, sizeof bytes);
            if (came <= 0) {
                end(it);
                if (it.is_open) {
                    ended++;
                    begin_connection(it, place);
                }
                continue;
            }
            it.answer.append(bytes, came);
            if (it.is_open && is_whole(it.answer)) answered(it, place);
        }
    }
    long all_times = lists + reports;
    auto part = [&](double share) {
        long left = long(share * all_times);
        for (size_t i = 0; i < times.size(); i++)
            if ((left -= times[i]) < 0) return i / 10.0;
        return longest * 1000;
    };
    printf("%ld %ld %ld %ld %ld %.1f %.1f %.1f %.1f %.0f\n", lists, reports, booked, refused, ended, part(0.5), part(0.99), part(0.999), longest * 1000, behind * 1000);
    return 0;
}
