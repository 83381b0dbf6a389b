// hermes_machine.hpp: the calls of hermes_machine.h as a C++17 class that owns one machine. It throws nothing of its own, and is
// moved and never copied. What hermes_machine.h asks under 'WHAT YOU OWE' holds here too, but for pointers and sizes, which
// the class sets.
#ifndef HERMES_MACHINE_HPP
#define HERMES_MACHINE_HPP

#include "hermes_machine.h"

#include <cstdint>
#include <string>
#include <string_view>

namespace hermes {

class machine {
  public:
    machine() noexcept = default;
    machine(machine &&other) noexcept : handle(other.handle) { other.handle = hermes_machine{}; }
    machine &operator=(machine &&other) noexcept {
        if (this != &other) {
            free();
            handle = other.handle;
            other.handle = hermes_machine{};
        }
        return *this;
    }
    machine(const machine &) = delete;
    machine &operator=(const machine &) = delete;
    ~machine() { free(); }

    // whether this library is the one that the header was written for
    static bool fits() noexcept { return hermes_machine_abi() == HERMES_MACHINE_ABI; }

    // The answer of each call is that of the C call of its name; each sets the size of the struct that it gives.
    std::int32_t make(hermes_profile profile, std::string_view name) noexcept {
        profile.size = sizeof profile;
        return hermes_machine_new(&handle, &profile, bytes_of(name), name.size());
    }
    std::int32_t free() noexcept { return hermes_machine_free(&handle); }

    std::int32_t step(hermes_input input, std::string_view bytes, std::int64_t now_ms) noexcept {
        input.size = sizeof input;
        return hermes_machine_step(&handle, &input, bytes_of(bytes), bytes.size(), now_ms);
    }
    std::int32_t step(std::uint32_t kind, std::uint32_t side, std::uint32_t what, std::string_view bytes, std::int64_t now_ms) noexcept {
        hermes_input input{};
        input.kind = kind;
        input.side = side;
        input.what = what;
        return step(input, bytes, now_ms);
    }

    // a line of a panel, without its end
    std::int32_t line(std::string_view text, std::int64_t now_ms) noexcept {
        return hermes_machine_line(&handle, bytes_of(text), text.size(), now_ms);
    }

    // the connection of a supervisor
    std::int32_t supervisor_bytes(std::string_view bytes) noexcept {
        return hermes_machine_supervisor_bytes(&handle, bytes_of(bytes), bytes.size());
    }
    std::int32_t supervisor_message(std::int64_t now_ms) noexcept { return hermes_machine_supervisor_message(&handle, now_ms); }
    std::int32_t supervisor_closed(std::int64_t now_ms) noexcept { return hermes_machine_supervisor_closed(&handle, now_ms); }
    std::int32_t supervisor_second(std::int64_t now_ms) noexcept { return hermes_machine_supervisor_second(&handle, now_ms); }

    std::int32_t view(hermes_view &to) noexcept {
        to.size = sizeof to;
        return hermes_machine_view(&handle, &to);
    }

    // the front of what waits on a way, as many bytes as there is room for
    std::int64_t unsent(std::uint32_t way, char *to, std::size_t room) noexcept {
        return hermes_machine_unsent(&handle, way, to_bytes(to), room);
    }
    std::int32_t sent(std::uint32_t way, std::size_t count) noexcept { return hermes_machine_sent(&handle, way, count); }

    std::int32_t act(std::uint32_t index, hermes_act &to) noexcept {
        to.size = sizeof to;
        return hermes_machine_act(&handle, index, &to);
    }
    std::int32_t board(std::uint32_t place, std::uint32_t index, hermes_board &to) noexcept {
        to.size = sizeof to;
        return hermes_machine_board(&handle, place, index, &to);
    }

    // a whole text: HERMES_DONE, or the answer in its place, and then `to` is empty
    std::int32_t act_text(std::uint32_t index, std::string &to) {
        return whole(to, [&](char *room, std::size_t many) {
            return hermes_machine_act_text(&handle, index, to.size(), to_bytes(room), many);
        });
    }
    std::int32_t log(std::string &to) {
        return whole(to, [&](char *room, std::size_t many) { return hermes_machine_log(&handle, to.size(), to_bytes(room), many); });
    }
    std::int32_t field(std::uint32_t place, std::uint32_t index, std::uint32_t field, std::string &to) {
        char room[1024];
        return taken(hermes_machine_field(&handle, place, index, field, to_bytes(room), sizeof room), room, to);
    }
    std::int32_t order(std::uint64_t query, std::string &to) {
        char room[1024];
        return taken(hermes_machine_order(&handle, query, to_bytes(room), sizeof room), room, to);
    }

  private:
    hermes_machine handle{};

    // an empty view may have no pointer, and the calls want one
    static const std::uint8_t *bytes_of(std::string_view text) noexcept {
        return reinterpret_cast<const std::uint8_t *>(text.data() != nullptr ? text.data() : "");
    }
    static std::uint8_t *to_bytes(char *to) noexcept { return reinterpret_cast<std::uint8_t *>(to); }
    // a text that is read in parts
    template <typename Read> static std::int32_t whole(std::string &to, Read read) {
        char room[1024];
        std::int64_t n;
        to.clear();
        while ((n = read(room, sizeof room)) > 0) to.append(room, static_cast<std::size_t>(n));
        if (n < 0) to.clear();
        return static_cast<std::int32_t>(n);
    }
    static std::int32_t taken(std::int64_t count, const char *from, std::string &to) {
        to.assign(from, count > 0 ? static_cast<std::size_t>(count) : 0);
        return count < 0 ? static_cast<std::int32_t>(count) : HERMES_DONE;
    }
};

} // namespace hermes
#endif
