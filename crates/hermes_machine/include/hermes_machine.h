/* hermes_machine.h: one machine of a circuit board line that hands boards on as The Hermes Standard
 * (IPC-HERMES-9852, version 1.5) says, as a library for a control program.
 *
 * A control program owns sockets, time and sensors; the library owns sessions, handovers and records. What happens is told by
 * hermes_machine_step, or by a line of a panel (hermes_machine_line); what is to be done is read back by hermes_machine_view
 * and hermes_machine_unsent. These are levels, no edges: nothing is lost where several steps are made before they are read.
 * The acts alone (hermes_machine_act, _act_text, _log) are those of the last step. A supervisor's
 * connection is heard by the hermes_machine_supervisor_.. calls; or your program has a supervisory system of its own, and tells the
 * machine that it is supervised, what it asks, and what is answered.
 *
 * WHOSE IS WHAT. The library opens nothing, waits for nothing, starts no thread, calls nothing of yours but the three
 * calls of memory below, and keeps nothing outside the handle and what it takes by these.
 *
 *     hermes_machine m = {0};
 *     hermes_profile p = {sizeof p, 7, 1, 4, 0, 0, 0};            number 7, lane 1, 4 places, no bridge, no ids made
 *     hermes_view v = {sizeof v};
 *     hermes_machine_new(&m, &p, (const uint8_t *)"Loader", 6);
 *     hermes_machine_view(&m, &v);
 *     hermes_machine_free(&m);
 *
 * WHAT YOU OWE. The library's proofs rest on this, and nothing checks it:
 *  1. A handle is all zero bytes before its first call. Only the calls below write to it. It may be moved, not copied:
 *     of two copies only one may be used, or freed, ever.
 *  2. No pointer is NULL, also where its length is 0. Each leads to memory of the stated size that is aligned, readable
 *     (and writable where it isn't const), that no other thread touches during the call, and that shares no byte with the
 *     handle or with another argument of the call, unless both are const. A struct that says a wrong size owes as many
 *     bytes as the struct has here.
 *  3. One call at a time for a handle, and each handle stays on the thread that made it.
 *  4. No call from a signal handler, from the forked child of a program with threads, or out of one of the calls of 5.
 *  5. rattle_alloc, rattle_realloc and rattle_dealloc are linked: hermes_machine_heap.c has them over malloc, realloc and
 *     free. Others must be of one allocator, and give blocks of the size and alignment that they are asked for.
 *  6. There is stack enough: bin/build-c prints what a call takes at most in the archive of Rattle's own compiler.
 *  7. The processor is in the state that C code has: direction flag clear, rounding to nearest.
 * You owe nothing else. Any bytes, numbers and orders of calls are answered.
 *
 * WHAT IS PROVED of each call stands at it, and is a clause of its contract in src/lib.rt of the crate hermes_machine.
 * 'Unchanged' says: the handle has the machine that it had before the call, as it was. Not proved, but tried by bin/build-c:
 * the layout of the structs and the numbers in this file, and that hermes_machine_free gives back what was taken.
 */
#ifndef HERMES_MACHINE_H
#define HERMES_MACHINE_H

#include <stddef.h>
#include <stdint.h>

#ifdef __cplusplus
extern "C" {
#endif

/* Raised by each change of a struct, a number or a call. Compare it with hermes_machine_abi() once. */
#define HERMES_MACHINE_ABI 6u

/* A handle: a machine, or, all zero, none. Its fields are the library's. */
typedef struct hermes_machine {
    uint64_t full;
    void *at;
} hermes_machine;

/* ---- answers: 0, a reason above it, or an error below it ---- */
enum {
    HERMES_DONE = 0,
    /* why an input can't be taken now: the first of its reasons, in this order */
    HERMES_NO_INTAKE_OPEN = 1,      /* a board is being taken */
    HERMES_NO_FULL = 2,             /* no place for one board more */
    HERMES_NO_IDS_USED_UP = 3,      /* all ids are made */
    HERMES_NO_NOT_KEPT = 4,         /* no record of this board is kept */
    HERMES_NO_OFFERED = 5,          /* the board was offered: its record may be known downstream */
    HERMES_NO_SAME = 6,             /* it is so already */
    HERMES_NO_CONNECTED = 7,        /* that side has a connection, or the one before is still to be closed */
    HERMES_NO_INTAKE_UNSETTLED = 8, /* a board lies between the intake and its neighbour */
    HERMES_NO_NOT_CONNECTED = 9,    /* that side, or each, has no connection */
    HERMES_NO_NO_HANDOVER = 10,     /* no board moves at that side */
    HERMES_NO_BRIDGE = 11,          /* a bridge's segment says what it is willing to do */
    HERMES_NO_NOT_A_BRIDGE = 12,
    HERMES_NO_NOT_STANDING = 13,    /* the session of that side doesn't stand */
    HERMES_NO_NOT_SUPPORTED = 14,   /* the neighbour lists no such feature */
    HERMES_NO_NOTHING_KEPT = 15,
    HERMES_NO_NOT_SUPERVISED = 16,
    HERMES_NO_QUERIES_FULL = 17,    /* 256 questions wait for an answer */
    HERMES_NO_UNKNOWN_QUERY = 18,
    HERMES_NO_ANSWERED = 19,
    HERMES_NO_SUBS_FULL = 20,       /* the board's record has no room for a circuit more: of the line `sub` alone */
    /* errors */
    HERMES_EMPTY = -1,     /* the handle has no machine */
    HERMES_MEMORY = -2,    /* memory was wanting */
    HERMES_BAD_INPUT = -3, /* a size or a number that is none */
    HERMES_BAD_TEXT = -4,  /* no text: not UTF-8, a character that XML forbids, or too few or too many bytes; or one of the lines
                              `connect`, `show`, `end`, which your program does itself */
    HERMES_NOT_EMPTY = -5, /* hermes_machine_new: the handle has a machine already */
    HERMES_NONE = -6,      /* there is no such act, record, field or work order; or the line is empty or a comment; or all that
                              came of the supervisor is done */
    /* why a line of a panel is refused: the first of its reasons. The last four are those of the words from the left */
    HERMES_REFUSED_LONG_LINE = -7,     /* more than 4,096 bytes */
    HERMES_REFUSED_NOT_TEXT = -9,      /* a byte that is neither a tab nor printable ASCII */
    HERMES_REFUSED_UNKNOWN_WORD = -10, /* the first word is no form's */
    HERMES_REFUSED_WRONG_COUNT = -11,  /* too few or too many words */
    HERMES_REFUSED_BAD_NUMBER = -12,
    HERMES_REFUSED_BAD_SIDE = -13,
    HERMES_REFUSED_BAD_ID = -14,
    HERMES_REFUSED_BAD_WORD = -15
};

/* ---- sides and ways. A machine's two sides have the numbers of their ways ---- */
enum {
    HERMES_ENTRY = 0,  /* boards come in here; the way to the upstream neighbour, to which this machine connects */
    HERMES_EXIT = 1,   /* boards go out here; the way of the downstream neighbour, whose connection it accepts */
    /* for hermes_machine_unsent and _sent alone */
    HERMES_SUPERVISOR = 2, /* the way to the supervisor, whose connection this machine accepts */
    HERMES_REFUSAL = 3     /* the text for a second connection */
};

/* ---- who a machine is ---- */
typedef struct hermes_profile {
    uint32_t size;     /* sizeof(hermes_profile) */
    uint32_t number;   /* the number in the ids that it makes, at least 1; no two machines of a line have one */
    uint32_t lane;     /* 1 to 999 */
    uint32_t capacity; /* for how many boards it has places, 1 to 1,024 */
    uint32_t bridge;   /* 1 where its body is a segment with IPC-SMEMA-9851 signals, else 0 */
    uint32_t zero;     /* 0 */
    uint64_t used;     /* how many ids it made before, below 2^48 */
} hermes_profile;

/* ---- how things stand ---- */
enum {
    HERMES_STATE_NOT_CONNECTED = 0,
    HERMES_STATE_SERVICE_DESCRIPTION = 1,
    HERMES_STATE_NOT_AVAILABLE_NOT_READY = 2,
    HERMES_STATE_BOARD_AVAILABLE = 3,
    HERMES_STATE_MACHINE_READY = 4,
    HERMES_STATE_AVAILABLE_AND_READY = 5,
    HERMES_STATE_TRANSPORTING = 6,
    HERMES_STATE_TRANSPORT_STOPPED = 7,
    HERMES_STATE_TRANSPORT_FINISHED = 8
};
typedef struct hermes_view {
    uint32_t size;       /* sizeof(hermes_view), set by the caller */
    uint32_t spent;      /* 1 where memory was wanting in a step: then both drives are 0 and all connections to be closed */
    uint32_t bridge;     /* as in the profile */
    uint32_t supervised; /* 1 while it is supervised */
    uint32_t state[2];   /* HERMES_STATE_.. of entry and exit */
    uint32_t held[2];    /* 1 where the intake, the outlet holds the record of a board between two machines */
    uint32_t drive[2];   /* 1 while the drive of entry, of exit is to run: a level, set it after each step */
    uint32_t signal[4];  /* of a bridge, levels: Board Available, Failed Board Available at its entry, Machine Ready at its
                            exit; then 0 */
    uint32_t close[4];   /* 1 where the connection of entry, of exit, of the supervisor is to be closed, once its text is
                            sent; then 0 */
    uint64_t kept;       /* how many records are kept */
    uint64_t acts;       /* how many acts the last step had */
    uint64_t unsent[4];  /* bytes that wait to be sent, by the number of the way */
    uint64_t ids_made;   /* for `used` of the next profile: how many ids it made, with those before it was new */
    uint64_t steps;      /* how many steps it made, as far as 64 bits count */
} hermes_view;

/* ---- what happens. Fields that a kind doesn't name are passed over. `bytes` are those of the call ---- */
enum {
    HERMES_NOTHING = 0,
    HERMES_CONNECTED = 1, /* side: a connection was made or accepted there. HERMES_NO_CONNECTED also where the one before it
                             is still to be closed (view.close): close that first, then tell CLOSED */
    HERMES_SECOND = 2,    /* side = EXIT: a second one was accepted: send it HERMES_REFUSAL's text, then close it */
    HERMES_BYTES = 3,     /* side, bytes: these came there, at most HERMES_MOST_BYTES in a call */
    HERMES_CLOSED = 4,    /* side: its connection is closed, by whomever. What waits there is dropped. Always taken; a step
                             is made where the machine has a connection there still, and else there are no last acts */
    HERMES_TICK = 5,      /* once a second, say: behind two silent ticks it sends a CheckAlive */
    HERMES_SENSED = 6,    /* side, what = HERMES_SAW_..: a sensor at that gap saw this: BEGUN, FULL, BACK or TAKEN at the
                             entry, BEGUN, LEFT, BACK or TAKEN at the exit */
    HERMES_FAULT = 7,     /* side: its drive failed */
    HERMES_WILL = 8,      /* side, what = 0 or 1: from now on boards are handed over there, or not */
    HERMES_LEVEL = 9,     /* side = HERMES_LINE_.., what = 0 or 1: a bridge's segment has this level now */
    HERMES_INSERT = 10,   /* what = 0, or 1 with bytes, its top barcode: a board was put in by hand, at the back */
    HERMES_REMOVE = 11,   /* id: it was taken out by hand */
    HERMES_REPLACE = 12,  /* id: another was put into its place by hand */
    HERMES_MARK = 13,     /* id, what = HERMES_UNKNOWN, _GOOD, _FAILED */
    HERMES_SHUTDOWN = 14, /* both connections are to end */
    HERMES_FORECAST = 15, /* the downstream neighbour is told which board comes next */
    HERMES_QUERY = 16,    /* bytes, a top barcode: the upstream neighbour is asked for that board */
    /* of work orders; and what your program does with a supervisory system of its own */
    HERMES_ASK = 17,       /* what = HERMES_BY_.., bytes, slot (BY_PLACE): a work order is wanted. The act TELLS names the
                              question's number, from 1 */
    HERMES_SUPERVISE = 18, /* what = 0 or 1: from now on it is supervised, or not: the acts TELLS name the boards that come
                              and go, and it may ask */
    HERMES_ANSWER = 19     /* query, bytes: that question is answered by this work order */
};
enum { HERMES_SAW_BEGUN = 0, HERMES_SAW_LEFT = 1, HERMES_SAW_FULL = 2, HERMES_SAW_BACK = 3, HERMES_SAW_TAKEN = 4 };
enum { HERMES_LINE_READY = 0, HERMES_LINE_AVAILABLE = 1, HERMES_LINE_FAILED = 2 };
enum { HERMES_UNKNOWN = 0, HERMES_GOOD = 1, HERMES_FAILED = 2 };
enum {
    HERMES_BY_BARCODE = 0, /* of the board with this barcode */
    HERMES_BY_ORDER = 1,   /* the order with this id */
    HERMES_BY_PLACE = 2    /* of the board in this slot of the magazine that the bytes name */
};

#define HERMES_MOST_BYTES 4096u

typedef struct hermes_input {
    uint32_t size; /* sizeof(hermes_input) */
    uint32_t kind;
    uint32_t side;
    uint32_t what;
    uint32_t slot;
    uint32_t zero;  /* 0 */
    uint8_t id[16]; /* a board's id, the most significant byte first, as a UUID is written */
    uint64_t query; /* a question's number */
} hermes_input;

/* ---- one act of the last step. What a kind doesn't name is 0 ---- */
enum {
    HERMES_ACT_READS = 0,     /* side, what = HERMES_SAW_..: a sensor event was read */
    HERMES_ACT_HEARS = 1,     /* side, what = HERMES_MSG_.. */
    HERMES_ACT_BREACHES = 2,  /* side: what came there is refused, as its text says. The connection ends */
    HERMES_ACT_SENDS = 3,     /* side, what = HERMES_MSG_.. */
    HERMES_ACT_CLOSES = 4,    /* side */
    HERMES_ACT_NOTICES = 5,   /* side: its connection is found closed */
    HERMES_ACT_CONNECTS = 6,  /* to the upstream neighbour */
    HERMES_ACT_OPENS = 7,     /* side = EXIT, id: the handover is open, and the outlet holds the record */
    HERMES_ACT_REFUSES = 8,   /* side = EXIT, id */
    HERMES_ACT_LEAVES = 9,    /* side = EXIT, id: the board is the downstream machine's */
    HERMES_ACT_RETURNS = 10,  /* side = EXIT, id: the board is in the machine again, its record at the front */
    HERMES_ACT_LOSES = 11,    /* side = EXIT, id: the board was taken out by hand */
    HERMES_ACT_STARTS = 12,   /* side = ENTRY, id: the intake holds the record */
    HERMES_ACT_SETTLES = 13,  /* side = ENTRY, id: the board is this machine's, its record at the back */
    HERMES_ACT_DROPS = 14,    /* side = ENTRY, id: the board didn't come */
    HERMES_ACT_DRIVE = 15,    /* side, what = 0 or 1 */
    HERMES_ACT_SIGNALS = 16,  /* side = the place in view.signal, what = 0 or 1 */
    HERMES_ACT_MARKS = 17,    /* id, what = HERMES_UNKNOWN, _GOOD, _FAILED */
    HERMES_ACT_INSERTS = 18,  /* id */
    HERMES_ACT_REMOVES = 19,  /* id */
    HERMES_ACT_REPLACES = 20, /* id by other */
    HERMES_ACT_TELLS = 21,    /* what = HERMES_MSG_BOARD_ARRIVED or _DEPARTED, id: a board came or went;
                                 HERMES_MSG_QUERY_WORK_ORDER_INFO, query: a work order is asked for */
    HERMES_ACT_ANSWERED = 22, /* query */
    HERMES_ACT_SETS = 23,     /* it was told otherwise, as its text says */
    HERMES_ACT_SUBS = 24      /* id, what = a place of its panel: its record has a circuit more. Of the line `sub` alone */
};
enum {
    HERMES_MSG_CHECK_ALIVE = 0,
    HERMES_MSG_SERVICE_DESCRIPTION = 1,
    HERMES_MSG_NOTIFICATION = 2,
    HERMES_MSG_BOARD_AVAILABLE = 3,
    HERMES_MSG_REVOKE_BOARD_AVAILABLE = 4,
    HERMES_MSG_MACHINE_READY = 5,
    HERMES_MSG_REVOKE_MACHINE_READY = 6,
    HERMES_MSG_START_TRANSPORT = 7,
    HERMES_MSG_STOP_TRANSPORT = 8,
    HERMES_MSG_TRANSPORT_FINISHED = 9,
    HERMES_MSG_BOARD_FORECAST = 10,
    HERMES_MSG_QUERY_BOARD_INFO = 11,
    HERMES_MSG_SEND_BOARD_INFO = 12,
    HERMES_MSG_BOARD_ARRIVED = 16,
    HERMES_MSG_BOARD_DEPARTED = 17,
    HERMES_MSG_QUERY_WORK_ORDER_INFO = 18,
    HERMES_MSG_OTHER = 31 /* one that the standard doesn't name */
};
typedef struct hermes_act {
    uint32_t size; /* sizeof(hermes_act), set by the caller */
    uint32_t kind;
    uint32_t side;
    uint32_t what;
    uint64_t query;
    uint8_t id[16];
    uint8_t other[16];
} hermes_act;

/* ---- records ---- */
enum {
    HERMES_KEPT = 0,   /* the kept records, index 0 at the front */
    HERMES_OUTLET = 1, /* index 0: the record that the outlet holds */
    HERMES_INTAKE = 2  /* index 0: the record that the intake holds */
};
/* fields of a record, each as its text; lengths (mm), the speed (mm/s) and the weight (g) as decimals. SO FAR the circuits of a
 * panel are none of them: a record that came with circuits is handed on with them */
enum {
    HERMES_FIELD_CREATED_BY = 0, /* the name of the machine that made the id. Each record has it */
    HERMES_FIELD_PRODUCT = 1,
    HERMES_FIELD_TOP_BARCODE = 2,
    HERMES_FIELD_BOTTOM_BARCODE = 3,
    HERMES_FIELD_LENGTH = 4,
    HERMES_FIELD_WIDTH = 5,
    HERMES_FIELD_THICKNESS = 6,
    HERMES_FIELD_SPEED = 7,
    HERMES_FIELD_TOP_CLEARANCE = 8,
    HERMES_FIELD_BOTTOM_CLEARANCE = 9,
    HERMES_FIELD_WEIGHT = 10,
    HERMES_FIELD_ORDER = 11,
    HERMES_FIELD_BATCH = 12
};
#define HERMES_FIELDS 13u
typedef struct hermes_board {
    uint32_t size;                /* sizeof(hermes_board), set by the caller */
    uint32_t quality;             /* HERMES_UNKNOWN, _GOOD, _FAILED */
    uint32_t flip;                /* 0 unknown, 1 top side up, 2 bottom side up */
    uint32_t has[HERMES_FIELDS]; /* 1 where field f is there */
    uint8_t id[16];
} hermes_board;

/* ==== the calls ==== */

/* HERMES_MACHINE_ABI of the library. Proved: result. */
uint32_t hermes_machine_abi(void);

/* Puts a machine into an empty handle: it keeps nothing, has no connection, and is willing on both sides (a bridge on
 * none). The first of these that holds is the answer: HERMES_NOT_EMPTY; HERMES_BAD_INPUT (a field out of its range);
 * HERMES_BAD_TEXT (the name is no text of 1 to 64 bytes); else HERMES_DONE, or HERMES_MEMORY.
 * Proved: which answer; at HERMES_DONE, that the machine is the new machine of this profile and name; at the others,
 * unchanged. */
int32_t hermes_machine_new(hermes_machine *m, const hermes_profile *profile, const uint8_t *name, size_t name_len);

/* Frees the machine and empties the handle. HERMES_EMPTY where it is empty; so freeing twice does no harm.
 * Proved: which answer, and that the handle is empty. */
int32_t hermes_machine_free(hermes_machine *m);

/* ONE STEP: something happened. The machine reads the sensor's event or takes the input, and makes the announcements that are due
 * (offers its front board, says that it is ready, starts a transport); a bridge sets its signals. Its messages wait on their
 * ways behind what waits there, the levels of drives and signals are those of the last act at each, and a way that it
 * closes is to be closed. Give the bytes of a connection in order, and tell CLOSED behind its last.
 * The first of these that holds is the answer: HERMES_EMPTY; HERMES_BAD_INPUT (size, kind, side, what, the moment, more than
 * HERMES_MOST_BYTES); HERMES_BAD_TEXT (a barcode that is no text of at most 1,024 bytes); the reason why the machine can't take it now;
 * HERMES_DONE. HERMES_MEMORY may stand in place of the last two: where it comes of the step itself the machine is spent.
 * Proved: which answer; at HERMES_DONE, that state and acts are those of the machine step (docs/standard/machine.md), with all
 * that is promised of it, that each way's text is the old one and the text of each message that was sent there, in order, and that
 * drives, signals and ways to be closed are those of the acts; at HERMES_MEMORY, that it is spent or unchanged, and that
 * view.ids_made counts an id of that step; at the others, unchanged; and that a spent machine never answers HERMES_DONE, and
 * stays as it is. */
int32_t hermes_machine_step(hermes_machine *m, const hermes_input *input, const uint8_t *bytes, size_t len, int64_t now_ms);

/* The same of a kind that names no id, slot or question; `bytes` may be NULL where `len` is 0. It fills in an input and calls
 * hermes_machine_step: not proved, only tested. */
static inline int32_t hermes_machine_tell(hermes_machine *m, uint32_t kind, uint32_t side, uint32_t what, const void *bytes, size_t len,
                                          int64_t now_ms) {
    const hermes_input input = {sizeof(hermes_input), kind, side, what, 0, 0, {0}, 0};
    return hermes_machine_step(m, &input, (const uint8_t *)(bytes != NULL ? bytes : ""), len, now_ms);
}

/* ONE STEP, BY A LINE of a panel, without its line end: docs/standard/node.md, 'Lines of a panel', has the forms.
 * The first of these that holds is the answer: HERMES_EMPTY; HERMES_BAD_INPUT (the moment); HERMES_REFUSED_.., as a node's panel
 * refuses it; HERMES_NONE (it is empty or a comment); HERMES_BAD_TEXT (`connect`, `show` or `end`); the reason why the machine can't take
 * it now; HERMES_DONE. HERMES_MEMORY may stand in place of all but the first two: where it comes of the step itself the machine is
 * spent.
 * Proved: which answer; at HERMES_DONE, that the machine made the step that a node makes of this line, with all that is promised of
 * hermes_machine_step; at the others what is promised there. */
int32_t hermes_machine_line(hermes_machine *m, const uint8_t *line, size_t len, int64_t now_ms);

/* A SUPERVISOR'S CONNECTION, which your program accepts: docs/standard/machine.md, 'The supervisory channel'. Give the bytes
 * that came, and then do their messages one by one until HERMES_NONE; a step that one makes has its acts and its log as any other.
 * What the machine says waits on the way HERMES_SUPERVISOR, while a session stands also each board that comes and goes and what
 * it asks; view.close[HERMES_SUPERVISOR] says that the connection is to be closed.
 *
 * Bytes came there. They wait; where the connection is to be closed they are dropped. The first of these that holds is the answer:
 * HERMES_EMPTY; HERMES_BAD_INPUT (more than HERMES_MOST_BYTES; or what came before isn't all done); else HERMES_DONE, or
 * HERMES_MEMORY, and the machine is spent. Proved: which answer; at HERMES_DONE, what waits; at HERMES_EMPTY and HERMES_BAD_INPUT,
 * unchanged; and that a spent machine never answers HERMES_DONE, and stays as it is. */
int32_t hermes_machine_supervisor_bytes(hermes_machine *m, const uint8_t *bytes, size_t len);

/* THE NEXT MESSAGE of those bytes: it is answered, makes a step (the machine is supervised from now on, or a work order is
 * taken), or neither; what is no message, has no row in the table of the session or is too long breaks it off with a Notification.
 * Where it makes no step there are no last acts. The first of these that holds is the answer: HERMES_EMPTY; HERMES_BAD_INPUT (the
 * moment); HERMES_NONE (all that came is done); else HERMES_DONE, or HERMES_MEMORY, and the machine is spent. Proved: which answer;
 * at HERMES_DONE, that the message is the next of the stream and does what a node does at it; that no id is made; at HERMES_EMPTY,
 * HERMES_BAD_INPUT and HERMES_NONE, unchanged; and that a spent machine never answers HERMES_DONE, and stays as it is. */
int32_t hermes_machine_supervisor_message(hermes_machine *m, int64_t now_ms);

/* That connection is closed, by whomever: what waits there and what came is dropped, and a machine that was supervised makes a step and
 * is so no more; else there are no last acts. The first of these that holds is the answer: HERMES_EMPTY; HERMES_BAD_INPUT (the
 * moment); else HERMES_DONE, or HERMES_MEMORY, and the machine is spent. Proved: as of the next message. */
int32_t hermes_machine_supervisor_closed(hermes_machine *m, int64_t now_ms);

/* A second connection of a supervisor was accepted: send it HERMES_REFUSAL's text, then close it. The first of these that holds is
 * the answer: HERMES_EMPTY; HERMES_BAD_INPUT (the moment); else HERMES_DONE, or HERMES_MEMORY, and nothing is spent by it. Proved:
 * which answer; at HERMES_DONE, the text, and that nothing else changes; at the others, unchanged. */
int32_t hermes_machine_supervisor_second(hermes_machine *m, int64_t now_ms);

/* Copies the front of what waits on a way into `to`, and answers how many bytes: the least of `room` and what waits.
 * HERMES_EMPTY, or else HERMES_BAD_INPUT (the number is no way's). Proved: which answer; the bytes; that the rest of `to` is as it
 * was; unchanged. */
int64_t hermes_machine_unsent(hermes_machine *m, uint32_t way, uint8_t *to, size_t room);

/* So many bytes from the front of that way's text were sent, all where there are fewer: they wait no more. HERMES_EMPTY, or else
 * HERMES_BAD_INPUT (way); else HERMES_DONE. Proved: which answer; that the text is the old one without its first `count`
 * bytes, and nothing else changes. */
int32_t hermes_machine_sent(hermes_machine *m, uint32_t way, size_t count);

/* How things stand. The first of these that holds is the answer: HERMES_EMPTY; HERMES_BAD_INPUT (view->size); else
 * HERMES_DONE. Proved: which answer; at HERMES_DONE, each field, and that ids_made is the count of the machine's id maker where
 * it isn't spent; at the others, that `view` is as it was; unchanged. */
int32_t hermes_machine_view(hermes_machine *m, hermes_view *view);

/* Act number `index` of the last step that was HERMES_DONE, from 0. The first of these that holds is the answer: HERMES_EMPTY; HERMES_BAD_INPUT
 * (act->size); HERMES_NONE (there is no such act); else HERMES_DONE. Proved: which answer; at HERMES_DONE, each field; at the
 * others, that `act` is as it was; unchanged. */
int32_t hermes_machine_act(hermes_machine *m, uint32_t index, hermes_act *act);

/* The text of that act, from byte `from` on: its line in the log of `node` (docs/standard/node.md), without the number of the turn in front
 * and without the line's end; a drive has one, too. The number of the machine in it is that of its profile. As
 * hermes_machine_unsent: it answers how many bytes. HERMES_EMPTY, or else HERMES_NONE; HERMES_MEMORY may stand in place of a
 * number of bytes, and nothing is spent by it. Proved: which answer; the bytes; that the rest of `to` is as it was; unchanged.
 * No text has more than 6,000 bytes (measured). */
int64_t hermes_machine_act_text(hermes_machine *m, uint32_t index, size_t from, uint8_t *to, size_t room);

/* The lines of the last step's acts, from byte `from` on: as a node logs them that tells its drives, the number of the step (view.steps)
 * in front of each; none before the first step, and none behind a call that was done without one. As hermes_machine_act_text:
 * HERMES_EMPTY; HERMES_MEMORY may stand in place of a number of bytes, and nothing is spent by it. Proved: which answer; the bytes;
 * that what the machine owns is read off the lines of its steps, one behind the other; that the rest of `to` is as it was; unchanged. */
int64_t hermes_machine_log(hermes_machine *m, size_t from, uint8_t *to, size_t room);

/* A record. The first of these that holds is the answer: HERMES_EMPTY; HERMES_BAD_INPUT (board->size, place); HERMES_NONE
 * (there is none); else HERMES_DONE. Proved: which answer; at HERMES_DONE, each field; at the others, that `board` is as it
 * was; unchanged. */
int32_t hermes_machine_board(hermes_machine *m, uint32_t place, uint32_t index, hermes_board *board);

/* The text of a record's field, at most 1,024 bytes: as hermes_machine_unsent. HERMES_EMPTY; else HERMES_BAD_INPUT (place, field); else
 * HERMES_NONE (there is no such record, or it hasn't the field); HERMES_MEMORY may stand in place of a number of bytes, and
 * nothing is spent by it. Proved: which answer; the bytes; that the rest of `to` is as it was; unchanged. */
int64_t hermes_machine_field(hermes_machine *m, uint32_t place, uint32_t index, uint32_t field, uint8_t *to, size_t room);

/* The work order that question number `query` (from 1) was answered with, at most 1,024 bytes: as hermes_machine_unsent.
 * HERMES_EMPTY; else HERMES_NONE (it wasn't asked, or isn't answered). Proved: which answer; the bytes; that the rest of `to`
 * is as it was; unchanged. */
int64_t hermes_machine_order(hermes_machine *m, uint64_t query, uint8_t *to, size_t room);

#ifdef __cplusplus
}
#endif
#endif
