// Answers the events of standard input as `ynl run` does: ./run CONFIG < EVENTS
#include "ynl.h"
#include <fstream>
#include <iostream>
#include <iterator>
#include <string>

class Cluster {
    ynl handle = YNL_INIT;

public:
    Cluster() = default;
    Cluster(const Cluster &) = delete;
    Cluster &operator=(const Cluster &) = delete;
    ~Cluster() { ynl_close(&handle); }

    uint32_t open(const std::string &config) { return ynl_open(&handle, config.data(), config.size()); }
    uint32_t apply(const std::string &line) { return ynl_apply(&handle, line.data(), line.size()); }

    std::string reply() {
        std::string text(4096, '\0');
        size_t length = 0;
        while (ynl_reply(&handle, &text[0], text.size(), &length) == YNL_NO_ROOM) text.resize(length);
        text.resize(length);
        return text;
    }
};

int main(int count, char **words) {
    std::ifstream file(count == 2 ? words[1] : "");
    std::string config((std::istreambuf_iterator<char>(file)), {}), line;
    Cluster cluster;
    uint32_t status = cluster.open(config);
    if (status != YNL_DONE) std::cerr << cluster.reply() << '\n';
    while (status == YNL_DONE && std::getline(std::cin, line)) {
        status = cluster.apply(line);
        std::cout << cluster.reply() << '\n';
    }
    return status != YNL_DONE;
}
