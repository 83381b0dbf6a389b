// The C++ class, each of its calls; what it prints is bindings.out, as what bindings.py prints.
#include "hermes_machine.hpp"
#include <cstdio>
#include <cstring>
#include <utility>

static const std::int64_t noon = 1790000000000;

static void show_acts(const char *what, hermes::machine &m) {
    hermes_act act{};
    std::string text;
    for (std::uint32_t i = 0; m.act(i, act) == HERMES_DONE; i++) {
        if (m.act_text(i, text) != HERMES_DONE) text = "no text";
        std::printf("%s: %u %s\n", what, act.kind, text.c_str());
    }
}

static void show_field(hermes::machine &m, std::uint32_t field) {
    std::string text;
    if (m.field(HERMES_KEPT, 0, field, text) != HERMES_DONE) text = "none";
    std::printf(" %s", text.c_str());
}

static std::string waiting(hermes::machine &m, std::uint32_t way) {
    char front[4096];
    const std::int64_t many = m.unsent(way, front, sizeof front);
    return std::string(front, many > 0 ? static_cast<std::size_t>(many) : 0);
}

int main() {
    hermes_profile bad{}, good{};
    good.number = 7, good.lane = 1, good.capacity = 4;
    hermes::machine m, other;
    hermes_view view{};
    hermes_board board{};
    std::string order, text;
    char front[4096];
    if (!hermes::machine::fits()) return 1;
    std::printf("new %d", m.make(bad, "Loader"));
    std::printf(" %d", m.make(good, std::string_view{}));
    std::printf(" %d\n", m.make(good, "Loader"));
    std::printf("insert %d\n", m.step(HERMES_INSERT, 0, 1, "4711", noon));
    show_acts("insert", m);
    std::printf("line %d", m.line("hold in", noon));
    std::printf(" %d\n", m.line("hold up", noon));
    std::printf("log %d", m.log(text));
    std::printf(" %s", text.c_str());
    std::printf("board %d", m.board(HERMES_KEPT, 0, board));
    std::printf(" quality %u", board.quality);
    show_field(m, HERMES_FIELD_CREATED_BY), show_field(m, HERMES_FIELD_TOP_BARCODE), show_field(m, HERMES_FIELD_WIDTH);
    hermes_input mark{};
    mark.kind = HERMES_MARK, mark.what = HERMES_GOOD;
    std::memcpy(mark.id, board.id, sizeof mark.id);
    std::printf("\nmark %d\n", m.step(mark, {}, noon));
    show_acts("mark", m);
    mark.kind = HERMES_REMOVE, mark.id[15] = 9;
    std::printf("remove %d\n", m.step(mark, {}, noon));
    m.step(HERMES_SUPERVISE, 0, 1, {}, noon);
    m.step(HERMES_ASK, 0, HERMES_BY_ORDER, "W", noon);
    std::printf("order %d", m.order(1, order));
    hermes_input answer{};
    answer.kind = HERMES_ANSWER, answer.query = 1;
    m.step(answer, "WO-7", noon);
    std::printf(" %d", m.order(1, order));
    std::printf(" %s\n", order.c_str());
    std::printf("connected %d", m.step(HERMES_CONNECTED, HERMES_ENTRY, 0, {}, noon));
    const std::int64_t waits = m.unsent(HERMES_ENTRY, front, sizeof front);
    std::printf(" waits %d", waits > 0);
    m.sent(HERMES_ENTRY, static_cast<std::size_t>(waits));
    std::printf(" %lld\n", static_cast<long long>(m.unsent(HERMES_ENTRY, front, sizeof front)));
    std::printf("supervisor %d", m.supervisor_bytes("<Hermes><SupervisoryServiceDescription SystemId=\"S\" Version=\"1.0\"/></Hermes>"));
    for (int i = 0; i < 3; i++) std::printf(" %d", m.supervisor_message(noon) == HERMES_DONE);
    std::printf(" %d", waiting(m, HERMES_SUPERVISOR).find("\"Loader\"") != std::string::npos);
    m.supervisor_second(noon);
    std::printf(" %d", waiting(m, HERMES_REFUSAL).find("already connected") != std::string::npos);
    m.supervisor_closed(noon);
    m.view(view);
    std::printf(" %zu %u\n", waiting(m, HERMES_SUPERVISOR).size(), view.supervised);
    other = std::move(m);
    std::printf("view %d", other.view(view));
    std::printf(" kept %llu ids %llu state %u\n", static_cast<unsigned long long>(view.kept), static_cast<unsigned long long>(view.ids_made), view.state[0]);
    std::printf("freed %d\n", m.view(view));
    return 0;
}
