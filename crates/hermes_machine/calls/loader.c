/* A loader of one board: hands it to the machine that connects to port 50101 of this host. */
#include "hermes_machine.h"
#include <arpa/inet.h>
#include <poll.h>
#include <stdio.h>
#include <time.h>
#include <unistd.h>

/* The belt, played: it takes a second to move the board out. In a control these are a stop that holds the board, the sensor there,
 * the sensor that sees a board wholly out, and the drive. */
static enum { AT_THE_STOP, UNDER_WAY, OUT } board = AT_THE_STOP;
static int64_t moves_since;

static int64_t now_ms(void) {
    struct timespec now;
    timespec_get(&now, TIME_UTC);
    return now.tv_sec * INT64_C(1000) + now.tv_nsec / 1000000;
}

static int is_to_run(hermes_machine *m) {
    hermes_view v = {.size = sizeof v};
    return hermes_machine_view(m, &v) == HERMES_DONE && v.drive[HERMES_EXIT];
}

static int is_read(hermes_machine *m, uint32_t what, int64_t now) {
    return hermes_machine_tell(m, HERMES_SENSED, HERMES_EXIT, what, NULL, 0, now) == HERMES_DONE;
}

/* What the sensor sees in a cycle, by the rule of the guide for a machine builder: a board that is to begin is held, and let go only
 * after the reading of its Begun, while its drive is to run. That it left is told when it has left. */
static void belt(hermes_machine *m, int64_t now) {
    if (board == AT_THE_STOP && is_to_run(m) && is_read(m, HERMES_SAW_BEGUN, now)) {
        if (is_to_run(m)) board = UNDER_WAY, moves_since = now; /* open the stop, switch the drive on */
        else is_read(m, HERMES_SAW_BACK, now);                  /* the board was held still */
    } else if (board == UNDER_WAY && !is_to_run(m)) {
        if (is_read(m, HERMES_SAW_BACK, now)) board = AT_THE_STOP; /* the drive is off at once; here a hand pushes the board back */
    } else if (board == UNDER_WAY && now - moves_since >= 1000) {
        if (is_read(m, HERMES_SAW_LEFT, now)) board = OUT;
    }
}

int main(void) {
    const hermes_profile p = {sizeof p, 1, 1, 4, 0, 0, 0};
    const struct sockaddr_in at = {.sin_family = AF_INET, .sin_port = htons(50101), .sin_addr = {htonl(INADDR_LOOPBACK)}};
    hermes_machine m = {0};
    hermes_view v = {.size = sizeof v};
    uint8_t bytes[HERMES_MOST_BYTES] = {0};
    int ear = socket(AF_INET, SOCK_STREAM, 0), way = -1, n = 1;
    int64_t ticked = now_ms();
    setsockopt(ear, SOL_SOCKET, SO_REUSEADDR, &(int){1}, sizeof(int));
    if (bind(ear, (const struct sockaddr *)&at, sizeof at) || listen(ear, 1)) return 1;
    if (hermes_machine_new(&m, &p, (const uint8_t *)"Loader", 6)) return 1;
    if (hermes_machine_tell(&m, HERMES_INSERT, 0, 1, "4711", 4, now_ms())) return 1;
    while (!hermes_machine_view(&m, &v) && !v.spent &&
           (v.kept || v.held[HERMES_EXIT] || v.unsent[HERMES_EXIT] || v.state[HERMES_EXIT] >= HERMES_STATE_TRANSPORTING)) {
        const int64_t now = now_ms();
        if (way >= 0 && (n <= 0 || (v.close[HERMES_EXIT] && !v.unsent[HERMES_EXIT]))) {
            close(way), way = -1, n = 1;
            hermes_machine_tell(&m, HERMES_CLOSED, HERMES_EXIT, 0, NULL, 0, now);
        } else if (way >= 0 && v.unsent[HERMES_EXIT]) {
            n = (int)send(way, bytes, (size_t)hermes_machine_unsent(&m, HERMES_EXIT, bytes, sizeof bytes), MSG_NOSIGNAL);
            hermes_machine_sent(&m, HERMES_EXIT, n > 0 ? (size_t)n : 0);
        } else if (poll(&(struct pollfd){way < 0 ? ear : way, POLLIN, 0}, 1, 20) > 0) {
            if (way >= 0) {
                if ((n = (int)read(way, bytes, sizeof bytes)) > 0)
                    hermes_machine_tell(&m, HERMES_BYTES, HERMES_EXIT, 0, bytes, (size_t)n, now);
            } else if ((way = accept(ear, NULL, NULL)) >= 0) {
                hermes_machine_tell(&m, HERMES_CONNECTED, HERMES_EXIT, 0, NULL, 0, now);
            }
        }
        belt(&m, now);
        if (now - ticked >= 1000) {
            hermes_machine_tell(&m, HERMES_TICK, 0, 0, NULL, 0, now);
            ticked = now;
        }
    }
    return hermes_machine_free(&m) || v.spent || puts("board handed over") < 0;
}
