// Two members, a loss and its repair, as repair.c, with the agent in a std::unique_ptr.
//
//     c++ -std=c++17 repair.cpp $(pkg-config --cflags --libs srm) -o repair
#include <algorithm>
#include <cstddef>
#include <iostream>
#include <memory>
#include <optional>
#include <stdexcept>
#include <string_view>
#include <vector>

#include <srm.h>

namespace {

constexpr std::uint64_t END = 900000;

struct Free {
    void operator()(srm_agent *agent) const { srm_agent_free(agent); }
};
using Agent = std::unique_ptr<srm_agent, Free>;
using Datagram = std::vector<std::uint8_t>;

void check(int code)
{
    if (code != SRM_OK)
        throw std::runtime_error(srm_strerror(code));
}

// The member's number is the seed of its waits too.
Agent join(std::uint8_t me)
{
    srm_config config;
    srm_config_default(&config);
    config.me = me;
    config.members = 2;
    config.session = 7;
    srm_agent *agent;
    check(srm_agent_new(&agent, &config, me, 0));
    return Agent(agent);
}

std::vector<Datagram> datagrams(srm_agent *agent)
{
    std::vector<Datagram> all;
    Datagram room(SRM_DATAGRAM_MAX);
    std::size_t length;
    while (srm_agent_next_datagram(agent, room.data(), room.size(), &length) == SRM_OK)
        all.emplace_back(room.data(), room.data() + length);
    return all;
}

void hear(srm_agent *agent, const Datagram &datagram, std::uint64_t now)
{
    check(srm_agent_hear(agent, datagram.data(), datagram.size(), now, nullptr));
}

void tick(srm_agent *from, srm_agent *to, std::uint64_t now)
{
    srm_name name;
    check(srm_agent_tick(from, now, nullptr));
    while (srm_agent_next_request(from, &name) == SRM_OK)
        std::cout << now << ": asked for stroke " << name.number << '\n';
    while (srm_agent_next_repair(from, &name) == SRM_OK)
        std::cout << now << ": repaired stroke " << name.number << '\n';
    for (const Datagram &datagram : datagrams(from))
        hear(to, datagram, now);
}

// The next message of the first page's slot, until there is none.
std::optional<srm_message> give(srm_agent *agent)
{
    srm_message message;
    int code = srm_agent_give(agent, 0, &message);
    if (code == SRM_NOTHING)
        return std::nullopt;
    check(code);
    return message;
}

void print(const srm_message &message)
{
    const srm_name &name = message.name;
    switch (message.kind) {
    case SRM_MESSAGE_OPEN:
        std::cout << "given page " << name.page.number << " of member " << +name.page.creator << '\n';
        break;
    case SRM_MESSAGE_DRAW:
        std::cout << "given stroke " << name.number << " of member " << +name.source << ": "
                  << std::string_view(reinterpret_cast<const char *>(message.body), message.length) << '\n';
        break;
    case SRM_MESSAGE_LEFT:
        std::cout << "given that member " << +name.source << " left\n";
        break;
    default:
        std::cout << "given the close\n";
    }
}

} // namespace

int main(int argc, char **argv)
{
    if (argc > 1) {
        std::cerr << "repair: " << argv[1] << ": it takes no argument\nusage: repair\n";
        return 2;
    }
    Agent drawer = join(0), listener = join(1);
    for (std::string_view stroke : {"a line", "a circle", "an arrow"})
        check(srm_agent_draw(drawer.get(), SRM_FIRST_PAGE, stroke.data(), stroke.size(), 0, nullptr));
    check(srm_agent_tick(drawer.get(), 0, nullptr));
    std::vector<Datagram> sent = datagrams(drawer.get());
    sent.erase(sent.begin() + 1); // the second is lost
    for (const Datagram &datagram : sent)
        hear(listener.get(), datagram, 0);
    for (;;) {
        std::uint64_t now = std::min(srm_agent_next_due(drawer.get()), srm_agent_next_due(listener.get()));
        if (now > END)
            break;
        tick(drawer.get(), listener.get(), now);
        tick(listener.get(), drawer.get(), now);
    }
    while (std::optional<srm_message> message = give(listener.get()))
        print(*message);
}
