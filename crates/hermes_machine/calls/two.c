/* Two machines of a line in one program, each behind its end of a socket pair. Three boards go from the first to the second: one
 * undisturbed; one whose connection breaks while it lies between them, and which is pushed in by hand; and one by a
 * connection that is made anew. What it prints is the merged log of the two, which `line check` judges. */
#include "hermes_machine.h"
#include <errno.h>
#include <stdio.h>
#include <stdlib.h>
#include <string.h>
#include <sys/socket.h>
#include <unistd.h>

typedef struct {
    hermes_machine handle;
    unsigned number;
    uint32_t way; /* the way to the other one */
    int fd;
} machine;

static machine loader = {{0, NULL}, 1, HERMES_EXIT, -1}, printer = {{0, NULL}, 2, HERMES_ENTRY, -1};
static int64_t now = INT64_C(1790000000000);

static void fail(const char *what) {
    fprintf(stderr, "two: %s\n", what);
    exit(1);
}

/* the lines of the last step, the machine's number in front of each */
static void log_step(machine *m) {
    static char text[65536];
    int64_t n = hermes_machine_log(&m->handle, 0, (uint8_t *)text, sizeof text);
    if (n < 0 || n == sizeof text) fail("no log");
    for (char *line = text, *end; line < text + n; line = end + 1) {
        end = memchr(line, '\n', (size_t)(text + n - line));
        if (end == NULL) fail("a line without its end");
        printf("%u %.*s\n", m->number, (int)(end - line), line);
    }
}

static int32_t tell(machine *m, uint32_t kind, uint32_t side, uint32_t what, const void *bytes, size_t len) {
    int32_t answer = hermes_machine_tell(&m->handle, kind, side, what, bytes, len, now++);
    if (answer < 0) fail("a step");
    if (answer == HERMES_DONE) log_step(m);
    return answer;
}

static void must(machine *m, uint32_t kind, uint32_t side, uint32_t what, const char *bytes, size_t len) {
    if (tell(m, kind, side, what, bytes, len) != HERMES_DONE) fail("not now");
}

static void hang_up(machine *m) {
    if (m->fd < 0) return;
    close(m->fd);
    m->fd = -1;
    must(m, HERMES_CLOSED, m->way, 0, "", 0);
}

/* sends what waits, or takes what came: whether there was anything to do */
static int exchange(machine *m, size_t piece) {
    uint8_t bytes[HERMES_MOST_BYTES];
    int64_t n;
    if (m->fd < 0) return 0;
    if ((n = hermes_machine_unsent(&m->handle, m->way, bytes, piece)) > 0) {
        ssize_t k = send(m->fd, bytes, (size_t)n, MSG_NOSIGNAL | MSG_DONTWAIT);
        if (k > 0) hermes_machine_sent(&m->handle, m->way, (size_t)k);
        if (k < 0 && errno != EAGAIN && errno != EWOULDBLOCK) hang_up(m);
        return k > 0 || m->fd < 0;
    }
    n = recv(m->fd, bytes, piece, MSG_DONTWAIT);
    if (n > 0) must(m, HERMES_BYTES, m->way, 0, (const char *)bytes, (size_t)n);
    if (n == 0) hang_up(m);
    return n >= 0;
}

static void run(void) {
    int loader_did = 1, printer_did = 1;
    while (loader_did || printer_did) {
        loader_did = exchange(&loader, 11);
        printer_did = exchange(&printer, 64);
    }
}

static void join(void) {
    int pair[2];
    if (socketpair(AF_UNIX, SOCK_STREAM, 0, pair)) fail("no socket pair");
    printer.fd = pair[0];
    loader.fd = pair[1];
    must(&printer, HERMES_CONNECTED, HERMES_ENTRY, 0, "", 0);
    must(&loader, HERMES_CONNECTED, HERMES_EXIT, 0, "", 0);
}

static hermes_view view_of(machine *m) {
    hermes_view v = {.size = sizeof v};
    if (hermes_machine_view(&m->handle, &v)) fail("no view");
    return v;
}

/* a board is laid into the loader, as its panel says, and both drives run in the end */
static void lay_in(const char *line) {
    if (hermes_machine_line(&loader.handle, (const uint8_t *)line, strlen(line), now++)) fail("no board");
    log_step(&loader);
    run();
    if (!view_of(&loader).drive[HERMES_EXIT] || !view_of(&printer).drive[HERMES_ENTRY]) fail("the drives don't run");
    must(&loader, HERMES_SENSED, HERMES_EXIT, HERMES_SAW_BEGUN, "", 0);
    must(&printer, HERMES_SENSED, HERMES_ENTRY, HERMES_SAW_BEGUN, "", 0);
}

static void pull_in(void) {
    must(&printer, HERMES_SENSED, HERMES_ENTRY, HERMES_SAW_FULL, "", 0);
    run();
}

int main(void) {
    const hermes_profile one = {sizeof one, 1, 1, 4, 0, 0, 0}, two = {sizeof two, 2, 1, 4, 0, 0, 0};
    if (hermes_machine_new(&loader.handle, &one, (const uint8_t *)"Loader", 6)) fail("no loader");
    if (hermes_machine_new(&printer.handle, &two, (const uint8_t *)"Printer", 7)) fail("no printer");
    join();
    lay_in("insert PCB-1");
    must(&loader, HERMES_SENSED, HERMES_EXIT, HERMES_SAW_LEFT, "", 0);
    pull_in();
    lay_in("insert PCB-2");
    must(&loader, HERMES_SENSED, HERMES_EXIT, HERMES_SAW_LEFT, "", 0);
    hang_up(&printer); /* the connection breaks, and the loader finds it closed */
    run();
    pull_in(); /* the board is pushed in by hand */
    join();
    run();
    lay_in("insert PCB-3");
    must(&loader, HERMES_SENSED, HERMES_EXIT, HERMES_SAW_LEFT, "", 0);
    pull_in();
    if (view_of(&printer).kept != 3 || view_of(&loader).kept != 0 || view_of(&loader).ids_made != 3) fail("a board is missing");
    hang_up(&printer);
    run();
    hermes_machine_free(&loader.handle);
    hermes_machine_free(&printer.handle);
    return 0;
}
