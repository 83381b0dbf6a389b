/* Each call of hermes_machine.h with each of its answers; what it prints is calls.out, written from the header. The three
 * calls of memory count here, and the one whose turn `fails_at` is has none; where `none_left` is set none has any. */
#include "layout.h"
#include <stdio.h>
#include <stdlib.h>
#include <string.h>

typedef struct {
    uint8_t is_there;
    void *at;
} rattle_block;

static size_t live, asked, fails_at;
static int none_left;
static uint64_t none[2];

static rattle_block block_at(void *at) {
    return (rattle_block){at != NULL, at != NULL ? at : none};
}

rattle_block rattle_alloc(size_t bytes, size_t align);
rattle_block rattle_realloc(void *at, size_t kept, size_t bytes, size_t align);
void rattle_dealloc(void *at);

rattle_block rattle_alloc(size_t bytes, size_t align) {
    if (++asked == fails_at || none_left) return block_at(NULL);
    live++;
    return block_at(malloc(bytes != 0 ? bytes : align));
}

rattle_block rattle_realloc(void *at, size_t kept, size_t bytes, size_t align) {
    (void)kept;
    if (++asked == fails_at || none_left) return block_at(NULL);
    return block_at(realloc(at, bytes != 0 ? bytes : align));
}

void rattle_dealloc(void *at) {
    live--;
    free(at);
}

static const hermes_profile good = {sizeof(hermes_profile), 7, 1, 4, 0, 0, 0};

static int32_t new_of(hermes_machine *m, hermes_profile p, const char *name) {
    return hermes_machine_new(m, &p, (const uint8_t *)name, strlen(name));
}

/* the answer to a profile and a name, at an empty handle; what is made is freed */
static int32_t tried(hermes_profile p, const char *name) {
    hermes_machine m = {0};
    int32_t answer = new_of(&m, p, name);
    if (answer == HERMES_DONE) hermes_machine_free(&m);
    return answer;
}

/* the answer to the good profile with the 32 bits at one place of it replaced */
static int32_t with(size_t offset, uint32_t value) {
    hermes_profile p = good;
    memcpy((unsigned char *)&p + offset, &value, sizeof value);
    return tried(p, "Loader");
}

static int32_t with_used(uint64_t used) {
    hermes_profile p = good;
    p.used = used;
    return tried(p, "Loader");
}

static void show(const char *what, const hermes_view *v) {
    printf("%s: size %u spent %u bridge %u supervised %u state %u %u held %u %u drive %u %u signal %u %u %u %u close %u %u %u %u"
           " kept %llu acts %llu unsent %llu %llu %llu %llu ids %llu\n", what, v->size, v->spent, v->bridge, v->supervised, v->state[0],
           v->state[1], v->held[0], v->held[1], v->drive[0], v->drive[1], v->signal[0], v->signal[1], v->signal[2], v->signal[3],
           v->close[0], v->close[1], v->close[2], v->close[3], (unsigned long long)v->kept, (unsigned long long)v->acts,
           (unsigned long long)v->unsent[0], (unsigned long long)v->unsent[1], (unsigned long long)v->unsent[2],
           (unsigned long long)v->unsent[3], (unsigned long long)v->ids_made);
}

static void profiles(void) {
    printf("good: %d\n", tried(good, "Loader"));
    printf("size: %d %d\n", with(offsetof(hermes_profile, size), 31), with(offsetof(hermes_profile, size), 33));
    printf("number: %d %d\n", with(offsetof(hermes_profile, number), 0), with(offsetof(hermes_profile, number), UINT32_MAX));
    printf("lane: %d %d %d %d\n", with(offsetof(hermes_profile, lane), 0), with(offsetof(hermes_profile, lane), 1),
           with(offsetof(hermes_profile, lane), 999), with(offsetof(hermes_profile, lane), 1000));
    printf("capacity: %d %d %d %d\n", with(offsetof(hermes_profile, capacity), 0),
           with(offsetof(hermes_profile, capacity), 1), with(offsetof(hermes_profile, capacity), 1024),
           with(offsetof(hermes_profile, capacity), 1025));
    printf("bridge: %d %d\n", with(offsetof(hermes_profile, bridge), 1), with(offsetof(hermes_profile, bridge), 2));
    printf("zero: %d\n", with(offsetof(hermes_profile, zero), 1));
    printf("used: %d %d %d\n", with_used((UINT64_C(1) << 48) - 1), with_used(UINT64_C(1) << 48), with_used(UINT64_MAX));
}

static void names(void) {
    char long_name[66] = {0};
    memset(long_name, 'n', 64);
    printf("name of 0, 1, 64, 65 bytes: %d %d %d", tried(good, ""), tried(good, "n"), tried(good, long_name));
    long_name[64] = 'n';
    printf(" %d\n", tried(good, long_name));
    printf("not UTF-8, a control character, UTF-8: %d %d %d\n", tried(good, "\xff"), tried(good, "\x01"),
           tried(good, "L\xc3\xb6tofen"));
    hermes_profile bad = good;
    bad.lane = 0;
    printf("number before text: %d\n", tried(bad, ""));
}

static void views(void) {
    hermes_machine m = {0}, n = {0};
    hermes_view v;
    hermes_profile bridge = good;
    bridge.bridge = 1;
    memset(&v, 0x55, sizeof v);
    printf("view of none: %d", hermes_machine_view(&m, &v));
    printf(" unchanged %d\n", v.size == 0x55555555 && v.kept == UINT64_C(0x5555555555555555));
    printf("new: %d %d\n", new_of(&m, good, "Loader"), new_of(&n, bridge, "Bridge"));
    printf("view of another size: %d", hermes_machine_view(&m, &v));
    printf(" unchanged %d\n", v.size == 0x55555555 && v.kept == UINT64_C(0x5555555555555555));
    v.size = sizeof v;
    printf("view: %d\n", hermes_machine_view(&m, &v));
    show("machine", &v);
    printf("view: %d\n", hermes_machine_view(&n, &v));
    show("bridge", &v);
    printf("new over one: %d\n", new_of(&m, good, "Loader"));
    hermes_machine moved = m;
    memset(&m, 0, sizeof m);
    printf("moved: %d %d\n", hermes_machine_view(&m, &v), hermes_machine_view(&moved, &v));
    printf("free: %d %d", hermes_machine_free(&moved), hermes_machine_free(&n));
    printf(" again: %d %d\n", hermes_machine_free(&moved), hermes_machine_free(&n));
    printf("zero behind: %d live %zu\n", moved.full == 0 && moved.at == NULL && n.full == 0 && n.at == NULL, live);
    printf("new again: %d", new_of(&n, good, "Loader"));
    printf(" free: %d", hermes_machine_free(&n));
    printf(" live %zu\n", live);
}

/* Each time that a machine is made one more of the calls of memory fails, until none does. */
static void shortages(void) {
    const char *long_id = "a name that takes memory of its own";
    int is_memory = 1, answer;
    for (size_t turn = 1;; turn++) {
        hermes_machine m = {0};
        asked = 0;
        fails_at = turn;
        answer = new_of(&m, good, long_id);
        fails_at = 0;
        if (asked < turn) {
            printf("shortages: memory %d then %d\n", is_memory, answer);
            hermes_machine_free(&m);
            break;
        }
        is_memory = is_memory && answer == HERMES_MEMORY && m.full == 0 && m.at == NULL && live == 0;
    }
    printf("live %zu\n", live);
}

static const hermes_input nothing = {sizeof(hermes_input), HERMES_NOTHING, 0, 0, 0, 0, {0}, 0};
static const int64_t noon = INT64_C(1790000000000);

static int32_t told(hermes_machine *m, uint32_t kind, uint32_t side, uint32_t what, const char *bytes) {
    return hermes_machine_tell(m, kind, side, what, bytes, strlen(bytes), noon);
}

static int32_t at_moment(hermes_machine *m, int64_t now) {
    return hermes_machine_step(m, &nothing, (const uint8_t *)"", 0, now);
}

static void say(const char *what, int32_t answer) {
    printf("%s: %d\n", what, answer);
}

static void look(const char *what, hermes_machine *m) {
    hermes_view v = {.size = sizeof v};
    hermes_machine_view(m, &v);
    show(what, &v);
}

/* each kind with a number out of its range, and what stands before it */
static void bad_inputs(void) {
    hermes_machine m = {0};
    hermes_input i = nothing;
    uint8_t bytes[HERMES_MOST_BYTES + 1] = {0};
    printf("step of none: %d\n", at_moment(&m, noon));
    new_of(&m, good, "Loader");
    i.size = 47;
    printf("size: %d", hermes_machine_step(&m, &i, bytes, 0, noon));
    i = nothing;
    i.zero = 1;
    printf(" zero: %d\n", hermes_machine_step(&m, &i, bytes, 0, noon));
    printf("kind: %d %d\n", told(&m, 20, 0, 0, ""), told(&m, UINT32_MAX, 0, 0, ""));
    printf("sides: %d %d %d %d %d %d %d %d\n", told(&m, HERMES_CONNECTED, 2, 0, ""), told(&m, HERMES_SECOND, 0, 0, ""),
           told(&m, HERMES_BYTES, 2, 0, ""), told(&m, HERMES_CLOSED, 3, 0, ""), told(&m, HERMES_SENSED, 2, 0, ""),
           told(&m, HERMES_FAULT, 2, 0, ""), told(&m, HERMES_WILL, 2, 0, ""), told(&m, HERMES_LEVEL, 3, 0, ""));
    printf("seen: %d %d %d %d\n", told(&m, HERMES_SENSED, HERMES_ENTRY, HERMES_SAW_LEFT, ""),
           told(&m, HERMES_SENSED, HERMES_EXIT, HERMES_SAW_FULL, ""), told(&m, HERMES_SENSED, HERMES_ENTRY, 5, ""),
           told(&m, HERMES_SENSED, HERMES_EXIT, HERMES_SAW_TAKEN, ""));
    printf("levels: %d %d %d %d\n", told(&m, HERMES_WILL, 0, 2, ""), told(&m, HERMES_LEVEL, 0, 2, ""),
           told(&m, HERMES_INSERT, 0, 2, ""), told(&m, HERMES_MARK, 0, 3, ""));
    printf("asked: %d %d\n", told(&m, HERMES_ASK, 0, 3, "x"), told(&m, HERMES_SUPERVISE, 0, 2, ""));
    printf("moments: %d %d %d %d\n", at_moment(&m, INT64_C(-62135596800001)), at_moment(&m, INT64_C(-62135596800000)),
           at_moment(&m, INT64_C(253402300799999)), at_moment(&m, INT64_C(253402300800000)));
    printf("bytes: %d %d\n", hermes_machine_step(&m, &nothing, bytes, HERMES_MOST_BYTES, noon),
           hermes_machine_step(&m, &nothing, bytes, HERMES_MOST_BYTES + 1, noon));
    printf("texts: %d %d %d\n", told(&m, HERMES_INSERT, 0, 1, "\xff"), told(&m, HERMES_QUERY, 0, 0, "\x01"),
           told(&m, HERMES_INSERT, 0, 0, "\xff"));
    look("behind", &m);
    hermes_machine_free(&m);
}

/* a reason of each kind of input that has one here */
static void reasons(void) {
    hermes_machine m = {0}, n = {0};
    hermes_profile bridge = good;
    bridge.bridge = 1;
    new_of(&m, good, "Loader");
    new_of(&n, bridge, "Bridge");
    printf("not connected: %d %d %d\n", told(&m, HERMES_BYTES, 0, 0, "a"), told(&m, HERMES_TICK, 0, 0, ""),
           told(&m, HERMES_SHUTDOWN, 0, 0, ""));
    printf("closed, of none: %d %d\n", told(&m, HERMES_CLOSED, 0, 0, ""), told(&m, HERMES_CLOSED, 1, 0, ""));
    printf("no handover: %d same: %d not a bridge: %d bridge: %d\n", told(&m, HERMES_FAULT, 0, 0, ""),
           told(&m, HERMES_WILL, 0, 1, ""), told(&m, HERMES_LEVEL, 0, 1, ""), told(&n, HERMES_WILL, 0, 1, ""));
    printf("not kept: %d %d %d\n", told(&m, HERMES_REMOVE, 0, 0, ""), told(&m, HERMES_REPLACE, 0, 0, ""),
           told(&m, HERMES_MARK, 0, 1, ""));
    printf("not standing: %d %d\n", told(&m, HERMES_FORECAST, 0, 0, ""), told(&m, HERMES_QUERY, 0, 0, "x"));
    for (int i = 0; i < 4; i++) told(&m, HERMES_INSERT, 0, 1, "x");
    printf("full: %d\n", told(&m, HERMES_INSERT, 0, 0, ""));
    look("full", &m);
    hermes_machine_free(&m);
    hermes_machine_free(&n);
}

static void show_id(const uint8_t id[16]) {
    for (int i = 0; i < 16; i++) printf("%s%02x", i == 4 || i == 6 || i == 8 || i == 10 ? "-" : "", id[i]);
}

/* the acts of the last step, each with its text */
static void show_acts(const char *what, hermes_machine *m) {
    static const uint8_t no_id[16] = {0};
    hermes_act a = {.size = sizeof a};
    char text[200];
    for (uint32_t i = 0; hermes_machine_act(m, i, &a) == HERMES_DONE; i++) {
        int64_t n = hermes_machine_act_text(m, i, 0, (uint8_t *)text, sizeof text);
        printf("%s: kind %u side %u what %u query %llu", what, a.kind, a.side, a.what, (unsigned long long)a.query);
        if (memcmp(a.id, no_id, 16)) printf(" id "), show_id(a.id);
        if (memcmp(a.other, no_id, 16)) printf(" other "), show_id(a.other);
        printf(" | %.*s\n", (int)n, text);
    }
}

static int64_t field_of(hermes_machine *m, uint32_t place, uint32_t index, uint32_t field, char *to, size_t room) {
    return hermes_machine_field(m, place, index, field, (uint8_t *)to, room);
}

static void show_board(const char *what, hermes_machine *m, uint32_t place) {
    hermes_board b = {.size = sizeof b};
    char text[200];
    printf("%s: %d", what, hermes_machine_board(m, place, 0, &b));
    printf(" quality %u flip %u ", b.quality, b.flip);
    show_id(b.id);
    for (uint32_t f = 0; f < HERMES_FIELDS; f++) {
        int64_t n = field_of(m, place, 0, f, text, sizeof text);
        if (b.has[f]) printf(" %u %.*s", f, (int)n, text);
        if (!b.has[f] && n != HERMES_NONE) printf(" %u?", f);
    }
    printf("\n");
}

/* all that waits on a way goes over to another machine, some bytes at a time */
static void carry(hermes_machine *from, uint32_t way, hermes_machine *to, uint32_t side, size_t piece) {
    uint8_t bytes[64];
    hermes_input i = nothing;
    int64_t n;
    i.kind = HERMES_BYTES;
    i.side = side;
    while ((n = hermes_machine_unsent(from, way, bytes, piece)) > 0) {
        hermes_machine_sent(from, way, (size_t)n);
        hermes_machine_step(to, &i, bytes, (size_t)n, noon);
    }
}

/* a board goes from one machine to another; bytes go to and fro until none waits */
static void handover(void) {
    hermes_machine a = {0}, b = {0};
    hermes_profile second = good;
    hermes_view v = {.size = sizeof v};
    second.number = 8;
    new_of(&a, good, "Loader");
    new_of(&b, second, "Printer");
    printf("insert: %d\n", told(&a, HERMES_INSERT, 0, 1, "4711"));
    say("connect below", told(&b, HERMES_CONNECTED, HERMES_ENTRY, 0, ""));
    say("above", told(&a, HERMES_CONNECTED, HERMES_EXIT, 0, ""));
    say("again below", told(&b, HERMES_CONNECTED, HERMES_ENTRY, 0, ""));
    say("above", told(&a, HERMES_CONNECTED, HERMES_EXIT, 0, ""));
    for (int turn = 0; turn < 8; turn++) {
        carry(&b, HERMES_ENTRY, &a, HERMES_EXIT, 64);
        carry(&a, HERMES_EXIT, &b, HERMES_ENTRY, 7);
    }
    look("open above", &a);
    show_acts("open above", &a);
    show_board("outlet", &a, HERMES_OUTLET);
    look("open below", &b);
    show_acts("open below", &b);
    show_board("intake", &b, HERMES_INTAKE);
    say("begun above", told(&a, HERMES_SENSED, HERMES_EXIT, HERMES_SAW_BEGUN, ""));
    say("below", told(&b, HERMES_SENSED, HERMES_ENTRY, HERMES_SAW_BEGUN, ""));
    say("left above", told(&a, HERMES_SENSED, HERMES_EXIT, HERMES_SAW_LEFT, ""));
    say("in below", told(&b, HERMES_SENSED, HERMES_ENTRY, HERMES_SAW_FULL, ""));
    for (int turn = 0; turn < 8; turn++) {
        carry(&b, HERMES_ENTRY, &a, HERMES_EXIT, 64);
        carry(&a, HERMES_EXIT, &b, HERMES_ENTRY, 7);
    }
    look("over above", &a);
    show_acts("over above", &a);
    look("over below", &b);
    show_acts("over below", &b);
    printf("second: %d\n", told(&a, HERMES_SECOND, HERMES_EXIT, 0, ""));
    hermes_machine_view(&a, &v);
    say("its text waits", v.unsent[HERMES_REFUSAL] > 0);
    say("sent", hermes_machine_sent(&a, HERMES_REFUSAL, SIZE_MAX));
    hermes_machine_view(&a, &v);
    say("its text waits", v.unsent[HERMES_REFUSAL] > 0);
    printf("no way: %lld %d\n", (long long)hermes_machine_unsent(&a, 4, (uint8_t *)&v, 1), hermes_machine_sent(&a, 4, 1));
    printf("shut down: %d\n", told(&a, HERMES_SHUTDOWN, 0, 0, ""));
    hermes_machine_view(&a, &v);
    printf("to be closed: %u waits: %d accepted: %d\n", v.close[HERMES_EXIT], v.unsent[HERMES_EXIT] > 0,
           told(&a, HERMES_CONNECTED, HERMES_EXIT, 0, ""));
    printf("closed: %d\n", told(&a, HERMES_CLOSED, HERMES_EXIT, 0, ""));
    look("closed", &a);
    say("accepted", told(&a, HERMES_CONNECTED, HERMES_EXIT, 0, ""));
    say("free", hermes_machine_free(&a));
    say("free", hermes_machine_free(&b));
    printf("live %zu\n", live);
}

/* what is read of none, with another size, of a place or field that is none, and where there is nothing */
static void nothing_to_read(void) {
    hermes_machine m = {0};
    hermes_act a;
    hermes_board b;
    char text[8];
    uint8_t *to = (uint8_t *)text;
    memset(&a, 0x55, sizeof a);
    memset(&b, 0x55, sizeof b);
    memset(text, 0x55, sizeof text);
    printf("of none: %d %lld %d %lld %lld\n", hermes_machine_act(&m, 0, &a), (long long)hermes_machine_act_text(&m, 0, 0, to, 8),
           hermes_machine_board(&m, 0, 0, &b), (long long)field_of(&m, 0, 0, 0, text, 8), (long long)hermes_machine_order(&m, 1, to, 8));
    new_of(&m, good, "Loader");
    printf("of another size: %d %d\n", hermes_machine_act(&m, 0, &a), hermes_machine_board(&m, 0, 0, &b));
    printf("unchanged: %d\n", a.size == 0x55555555 && a.other[15] == 0x55 && b.size == 0x55555555 && b.id[15] == 0x55);
    a.size = sizeof a;
    b.size = sizeof b;
    printf("nothing there: %d %lld %d %lld %lld\n", hermes_machine_act(&m, 0, &a), (long long)hermes_machine_act_text(&m, 0, 0, to, 8),
           hermes_machine_board(&m, 0, 0, &b), (long long)field_of(&m, 0, 0, 0, text, 8), (long long)hermes_machine_order(&m, 1, to, 8));
    printf("places: %d %d %d\n", hermes_machine_board(&m, HERMES_OUTLET, 0, &b), hermes_machine_board(&m, HERMES_INTAKE, 0, &b),
           hermes_machine_board(&m, 3, 0, &b));
    printf("fields: %lld %lld %lld\n", (long long)field_of(&m, 3, 0, 0, text, 8), (long long)field_of(&m, 0, 0, 12, text, 8),
           (long long)field_of(&m, 0, 0, 13, text, 8));
    printf("unchanged: %d\n", a.kind == 0x55555555 && b.quality == 0x55555555 && text[0] == 0x55);
    hermes_machine_free(&m);
}

static int32_t told_of(hermes_machine *m, uint32_t kind, uint32_t what, const uint8_t id[16]) {
    hermes_input i = nothing;
    i.kind = kind;
    i.what = what;
    memcpy(i.id, id, 16);
    return hermes_machine_step(m, &i, (const uint8_t *)"", 0, noon);
}

/* a board is put in, marked and replaced; texts in parts */
static void read_of_boards(void) {
    hermes_machine m = {0};
    hermes_board b = {.size = sizeof b};
    char text[200] = {0};
    uint8_t *to = (uint8_t *)text;
    new_of(&m, good, "Loader");
    told(&m, HERMES_INSERT, 0, 1, "4711");
    show_acts("insert", &m);
    show_board("board", &m, HERMES_KEPT);
    printf("parts: %lld", (long long)hermes_machine_act_text(&m, 0, 0, to, 6));
    printf(" %.6s", text);
    printf(" %lld", (long long)hermes_machine_act_text(&m, 0, 44, to, 6));
    printf(" %.1s %lld %lld %lld\n", text, (long long)hermes_machine_act_text(&m, 0, 45, to, 6),
           (long long)hermes_machine_act_text(&m, 0, SIZE_MAX, to, 6), (long long)hermes_machine_act_text(&m, 1, 0, to, 6));
    printf("a part of a field: %lld", (long long)field_of(&m, 0, 0, HERMES_FIELD_TOP_BARCODE, text, 2));
    printf(" %.2s\n", text);
    hermes_machine_board(&m, 0, 0, &b);
    printf("mark: %d\n", told_of(&m, HERMES_MARK, HERMES_FAILED, b.id));
    show_acts("mark", &m);
    show_board("board", &m, HERMES_KEPT);
    printf("replace: %d\n", told_of(&m, HERMES_REPLACE, 0, b.id));
    show_acts("replace", &m);
    show_board("board", &m, HERMES_KEPT);
    printf("second board: %d\n", hermes_machine_board(&m, 0, 1, &b));
    printf("hold: %d\n", told(&m, HERMES_WILL, HERMES_EXIT, 0, ""));
    show_acts("hold", &m);
    hermes_machine_free(&m);
}

static int32_t answered(hermes_machine *m, uint64_t query, const char *order) {
    hermes_input i = nothing;
    i.kind = HERMES_ANSWER;
    i.query = query;
    return hermes_machine_step(m, &i, (const uint8_t *)order, strlen(order), noon);
}

static void show_order(hermes_machine *m, uint64_t query) {
    char text[200];
    int64_t n = hermes_machine_order(m, query, (uint8_t *)text, sizeof text);
    printf("order %llu: %lld%s%.*s\n", (unsigned long long)query, (long long)n, n > 0 ? " " : "", n > 0 ? (int)n : 0, text);
}

/* a work order is asked for and answered, once */
static void orders(void) {
    hermes_machine m = {0};
    new_of(&m, good, "Loader");
    printf("not supervised: %d %d\n", told(&m, HERMES_ASK, 0, HERMES_BY_ORDER, "x"), answered(&m, 1, "WO-7"));
    say("supervise", told(&m, HERMES_SUPERVISE, 0, 1, ""));
    show_acts("supervise", &m);
    told(&m, HERMES_INSERT, 0, 0, "");
    show_acts("insert", &m);
    say("ask by what is no text", told(&m, HERMES_ASK, 0, HERMES_BY_BARCODE, "\xff"));
    say("ask by an order", told(&m, HERMES_ASK, 0, HERMES_BY_ORDER, "4711"));
    show_acts("ask", &m);
    show_order(&m, 0);
    show_order(&m, 1);
    say("ask by a barcode", told(&m, HERMES_ASK, 0, HERMES_BY_BARCODE, "4711"));
    say("ask by a place", told(&m, HERMES_ASK, 0, HERMES_BY_PLACE, "M"));
    show_acts("ask", &m);
    say("answer to none", answered(&m, 4, "WO-7"));
    say("answer that is no text", answered(&m, 1, "\x01"));
    say("answer", answered(&m, 1, "WO-7"));
    show_acts("answer", &m);
    say("another answer", answered(&m, 1, "WO-8"));
    show_order(&m, 1);
    show_order(&m, 2);
    show_order(&m, UINT64_MAX);
    hermes_machine_free(&m);
}

static int32_t lined(hermes_machine *m, const char *line) {
    return hermes_machine_line(m, (const uint8_t *)line, strlen(line), noon);
}

static void show_log(const char *what, hermes_machine *m) {
    char text[400];
    int64_t n = hermes_machine_log(m, 0, (uint8_t *)text, sizeof text);
    printf("%s: log %lld\n%.*s", what, (long long)n, n > 0 ? (int)n : 0, text);
}

/* lines of a panel: steps, each refusal, those that ask for none; and the lines of a log */
static void lines(void) {
    hermes_machine m = {0};
    hermes_view v = {.size = sizeof v};
    char long_line[4098], text[8] = "unread";
    memset(long_line, ' ', sizeof long_line);
    long_line[4097] = 0;
    show_log("of none", &m);
    printf("line of none: %d\n", lined(&m, "insert"));
    new_of(&m, good, "Loader");
    show_log("before a step", &m);
    say("insert", lined(&m, "insert 4711"));
    show_log("insert", &m);
    say("sub", lined(&m, " sub\t00000007-0000-8000-8000-000000000001 3 C3"));
    show_log("sub", &m);
    show_acts("sub", &m);
    printf("refused: %d %d %d %d %d %d %d %d\n", lined(&m, long_line), lined(&m, "\x7f"), lined(&m, "bridge on"), lined(&m, "insert a b"),
           lined(&m, "ask place M x"), lined(&m, "hold up"), lined(&m, "remove 4711"),
           lined(&m, "mark 00000007-0000-8000-8000-000000000001 fine"));
    long_line[4096] = 0;
    printf("nothing: %d %d %d\n", lined(&m, ""), lined(&m, "# a comment"), lined(&m, long_line));
    printf("outside: %d %d %d\n", lined(&m, "connect"), lined(&m, "show"), lined(&m, "end"));
    printf("reasons: %d %d %d\n", lined(&m, "tick"), lined(&m, "fault in"), lined(&m, "go out"));
    printf("moments: %d %d\n", hermes_machine_line(&m, (const uint8_t *)"hold in", 7, INT64_C(-62135596800001)),
           hermes_machine_line(&m, (const uint8_t *)"hold in", 7, INT64_C(-62135596800000)));
    show_log("hold", &m);
    printf("parts: %lld", (long long)hermes_machine_log(&m, 2, (uint8_t *)text, 6));
    printf(" %.6s", text);
    printf(" %lld", (long long)hermes_machine_log(&m, 11, (uint8_t *)text, 6));
    printf(" %.1s %lld\n", text, (long long)hermes_machine_log(&m, SIZE_MAX, (uint8_t *)text, 6));
    say("closed, of none", told(&m, HERMES_CLOSED, HERMES_ENTRY, 0, ""));
    show_log("closed", &m);
    say("sense", lined(&m, "sense in Taken"));
    show_log("sense", &m);
    hermes_machine_view(&m, &v);
    printf("steps: %llu\n", (unsigned long long)v.steps);
    hermes_machine_free(&m);
}

static int32_t came(hermes_machine *m, const char *bytes) {
    return hermes_machine_supervisor_bytes(m, (const uint8_t *)bytes, strlen(bytes));
}

/* each message of what came, with its log, and then what waits for the supervisor, which is sent */
static void hear(const char *what, hermes_machine *m, const char *bytes) {
    char text[1000];
    int32_t answer = came(m, bytes);
    printf("%s: %d\n", what, answer);
    while ((answer = hermes_machine_supervisor_message(m, noon)) == HERMES_DONE) show_log("message", m);
    int64_t n = hermes_machine_unsent(m, HERMES_SUPERVISOR, (uint8_t *)text, sizeof text);
    printf("then %d waits %lld\n%.*s%s", answer, (long long)n, (int)n, text, n > 0 ? "\n" : "");
    hermes_machine_sent(m, HERMES_SUPERVISOR, (size_t)n);
}

#define SYSTEM "<Hermes><SupervisoryServiceDescription SystemId=\"S\" Version=\"1.0\"/></Hermes>"
#define PING "<Hermes><CheckAlive Type=\"1\" Id=\"a\"/></Hermes>"

/* a supervisor's connection: its session, a board that it is told of, a work order, and each way to an end */
static void supervised(void) {
    hermes_machine m = {0};
    hermes_view v = {.size = sizeof v};
    static char many[HERMES_MOST_BYTES + 2];
    char text[300];
    memset(many, ' ', HERMES_MOST_BYTES + 1);
    printf("supervisor of none: %d %d %d %d\n", came(&m, ""), hermes_machine_supervisor_message(&m, noon),
           hermes_machine_supervisor_closed(&m, noon), hermes_machine_supervisor_second(&m, noon));
    new_of(&m, good, "Loader");
    printf("bad: %d %d %d %d\n", came(&m, many), hermes_machine_supervisor_message(&m, INT64_C(-62135596800001)),
           hermes_machine_supervisor_closed(&m, INT64_C(-62135596800001)), hermes_machine_supervisor_second(&m, INT64_C(-62135596800001)));
    say("nothing came", hermes_machine_supervisor_message(&m, noon));
    say("half a message", came(&m, "<Hermes><CheckAl"));
    say("more before it is done", came(&m, "x"));
    hear("still not", &m, "x");
    hear("the other half", &m, "ive Type=\"1\" Id=\"a\"/></Hermes>");
    hear("session", &m, SYSTEM PING);
    say("insert", told(&m, HERMES_INSERT, 0, 0, ""));
    hear("nothing more", &m, "");
    say("ask", told(&m, HERMES_ASK, 0, HERMES_BY_ORDER, "4711"));
    hear("orders", &m, "<Hermes><SendWorkOrderInfo QueryId=\"1\" WorkOrderId=\"WO-7\"/></Hermes>"
         "<Hermes><SendWorkOrderInfo QueryId=\"2\" WorkOrderId=\"D\"/></Hermes>");
    show_order(&m, 1);
    say("second", hermes_machine_supervisor_second(&m, noon));
    int64_t n = hermes_machine_unsent(&m, HERMES_REFUSAL, (uint8_t *)text, sizeof text);
    printf("its text: %.*s\n", (int)n, text);
    hear("breach", &m, SYSTEM PING);
    hermes_machine_view(&m, &v);
    printf("to be closed: %u %u %u waits %llu supervised %u\n", v.close[0], v.close[1], v.close[2], (unsigned long long)v.unsent[2], v.supervised);
    hear("dropped", &m, PING);
    say("closed", hermes_machine_supervisor_closed(&m, noon));
    hermes_machine_view(&m, &v);
    printf("to be closed: %u\n", v.close[HERMES_SUPERVISOR]);
    hear("another connection", &m, SYSTEM);
    say("closed", hermes_machine_supervisor_closed(&m, noon));
    show_log("closed", &m);
    say("closed again", hermes_machine_supervisor_closed(&m, noon));
    show_log("closed again", &m);
    hear("no message", &m, "<Hermes><Bogus </Hermes>");
    say("closed", hermes_machine_supervisor_closed(&m, noon));
    hear("no row", &m, "<Hermes><SendWorkOrderInfo QueryId=\"1\" WorkOrderId=\"A\"/></Hermes>");
    hermes_machine_supervisor_closed(&m, noon);
    many[HERMES_MOST_BYTES] = 0;
    memcpy(many, "<Hermes>", 8);
    for (int turn = 0; turn < 16; turn++) {
        came(&m, many);
        while (turn < 15 && hermes_machine_supervisor_message(&m, noon) == HERMES_DONE) {}
    }
    hear("more while it is not done", &m, "x");
    hermes_machine_free(&m);
}

/* Memory is wanting for a text: nothing is copied, and the machine is as it was. Then it is wanting in a step, each time one
 * call later: the machine is spent, and has counted the id. */
static void wants(void) {
    hermes_machine m = {0};
    hermes_view v = {.size = sizeof v};
    char text[8] = "unread";
    int32_t answer = 1;
    int right = 1;
    new_of(&m, good, "Loader");
    told(&m, HERMES_INSERT, 0, 1, "4711");
    fails_at = asked + 1;
    printf("no text: %lld", (long long)hermes_machine_act_text(&m, 0, 0, (uint8_t *)text, sizeof text));
    fails_at = asked + 1;
    printf(" %lld", (long long)field_of(&m, 0, 0, HERMES_FIELD_CREATED_BY, text, sizeof text));
    fails_at = asked + 1;
    printf(" %lld", (long long)hermes_machine_log(&m, 0, (uint8_t *)text, sizeof text));
    fails_at = 0;
    none_left = 1;
    printf(" %d", lined(&m, "hold in"));
    none_left = 0;
    hermes_machine_view(&m, &v);
    printf(" %s spent %u kept %llu\n", text, v.spent, (unsigned long long)v.kept);
    hermes_machine_free(&m);
    for (size_t turn = 1; answer != HERMES_DONE; turn++) {
        new_of(&m, good, "Loader");
        fails_at = asked + turn;
        answer = told(&m, HERMES_INSERT, 0, 1, "a barcode that takes memory of its own");
        fails_at = 0;
        hermes_machine_view(&m, &v);
        if (answer == HERMES_MEMORY && v.spent)
            right = right && v.ids_made == 1 && v.close[0] && v.close[1] && told(&m, HERMES_NOTHING, 0, 0, "") == HERMES_MEMORY;
        else
            right = right && v.ids_made == (answer == HERMES_DONE) && v.kept == v.ids_made;
        hermes_machine_free(&m);
    }
    printf("no memory in a step: %d\nlive %zu\n", right, live);
}

int main(void) {
    printf("abi: %d\n", hermes_machine_abi() == HERMES_MACHINE_ABI);
    profiles();
    names();
    views();
    shortages();
    bad_inputs();
    reasons();
    handover();
    nothing_to_read();
    read_of_boards();
    orders();
    lines();
    supervised();
    wants();
    return 0;
}
