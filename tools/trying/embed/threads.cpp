// threads FILE..: four threads, each of which makes all calls on all texts, from another one on; prints what the first was given, and the
// status is how many were given something else.
#include "calls.h"
#include <string>
#include <thread>
#include <vector>

using Given = std::vector<std::string>;

static void ask(const std::vector<std::string> &names, size_t first, Given &given) {
    given.resize(names.size());
    for (size_t turn = 0; turn < names.size(); turn++) {
        size_t number = (first + turn) % names.size(), size, length;
        uint8_t *text = text_of(names[number].c_str(), &size), *out;
        for (int call = 0; call < CALLS; call++) {
            int status = answered(call, text, size, &out, &length);
            given[number] += names[number] + " " + call_names[call] + " " + std::to_string(status) + " " + std::to_string(length) + "\n";
            given[number].append(reinterpret_cast<char *>(out), length);
            free(out);
        }
        free(text);
    }
}

int main(int count, char **words) {
    std::vector<std::string> names(words + 1, words + count);
    Given given[4];
    std::vector<std::thread> threads;
    for (size_t each = 0; each < 4; each++) threads.emplace_back(ask, std::cref(names), each * names.size() / 4, std::ref(given[each]));
    for (auto &each : threads) each.join();
    for (const auto &each : given[0]) fwrite(each.data(), 1, each.size(), stdout);
    int others = 0;
    for (const auto &each : given) others += each != given[0];
    return others;
}
