// Answers over HTTP, as the clients beside it read them.
#include <cstdlib>
#include <string>

// An answer is whole once its head is there, and as many bytes behind that as the head says.
static bool is_whole(const std::string &answer) {
    size_t body = answer.find("\r\n\r\n"), length = answer.find("content-length: ");
    return body != std::string::npos && length < body && answer.size() >= body + 4 + atol(answer.c_str() + length + 16);
}
