// Reports of targets, one behind the other on each of some connections: reports PORT CONNECTIONS TARGETS COLLECTOR NUMBER ROUND EPOCH
// Prints how many were booked, and the seconds from the first byte that was sent to the last that came.
#include <arpa/inet.h>
#include <chrono>
#include <cstdio>
#include <cstdlib>
#include <netinet/tcp.h>
#include <poll.h>
#include <string>
#include <sys/socket.h>
#include <unistd.h>
#include <vector>

#include "answers.h"

struct Client {
    int socket;
    int next, end;
    std::string answer;
};

static int connected(int port) {
    int made = socket(AF_INET, SOCK_STREAM, 0), yes = 1;
    sockaddr_in to{};
    to.sin_family = AF_INET;
    to.sin_port = htons(port);
    to.sin_addr.s_addr = htonl(INADDR_LOOPBACK);
    if (made < 0 || connect(made, reinterpret_cast<sockaddr *>(&to), sizeof to) != 0) {
        perror("reports");
        exit(1);
    }
    setsockopt(made, IPPROTO_TCP, TCP_NODELAY, &yes, sizeof yes);
    return made;
}

int main(int count, char **words) {
    if (count != 8) {
        fprintf(stderr, "usage: reports PORT CONNECTIONS TARGETS COLLECTOR NUMBER ROUND EPOCH\n");
        return 2;
    }
    int connections = atoi(words[2]), targets = atoi(words[3]), left = targets, booked = 0;
    std::vector<Client> clients;
    std::vector<pollfd> waits;
    for (int i = 0; i < connections; i++) {
        clients.push_back({connected(atoi(words[1])), int(long(targets) * i / connections), int(long(targets) * (i + 1) / connections), ""});
        waits.push_back({clients.back().socket, POLLIN, 0});
    }
    auto send_next = [&](Client &client) {
        char body[256], request[512];
        int length = snprintf(body, sizeof body, "{\"collector\":%s,\"number\":%s,\"target\":%d,\"round\":%s,\"epoch\":%s,\"up\":true,\"samples\":900}", words[4], words[5], client.next++, words[6], words[7]);
        int whole = snprintf(request, sizeof request, "POST /reports HTTP/1.1\r\nhost: localhost\r\ncontent-type: application/json\r\ncontent-length: %d\r\n\r\n%s", length, body);
        client.answer.clear();
        if (write(client.socket, request, whole) != whole) {
            perror("reports");
            exit(1);
        }
    };
    auto began = std::chrono::steady_clock::now();
    for (Client &client : clients)
        if (client.next < client.end) send_next(client);
    while (left > 0) {
        poll(waits.data(), waits.size(), -1);
        for (size_t i = 0; i < clients.size(); i++) {
            if (!waits[i].revents) continue;
            char bytes[4096];
            ssize_t came = read(clients[i].socket, bytes, sizeof bytes);
            if (came <= 0) {
                fprintf(stderr, "reports: a connection ended\n");
                return 1;
            }
            clients[i].answer.append(bytes, came);
            if (!is_whole(clients[i].answer)) continue;
            left--;
            booked += clients[i].answer.find("Booked") != std::string::npos;
            if (clients[i].next < clients[i].end) send_next(clients[i]);
        }
    }
    std::chrono::duration<double> took = std::chrono::steady_clock::now() - began;
    printf("%d %.6f\n", booked, took.count());
    return 0;
}
