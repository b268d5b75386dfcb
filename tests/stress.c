/*
 * stress.c: what pellacrosta.h promises of every memory, tried on calls by chance: on one desk through long sessions, and on memories
 * that no calls made.
 *
 * What is lent lies in a page of its own between pages that trap, at its start, at its end or in between, and the rest of the page
 * is known noise: a call that touches a byte beside what it was lent traps or is seen. Each call is made twice, at other places in the
 * pages: the answers and what is left must be equal, since a call depends on nothing but what it is lent.
 *
 * A failure is told with the seed and the number of the call, and so are a trap and a call that doesn't end; the same seed fails again at
 * the same call. Exits with 1 then.
 */
#define _DEFAULT_SOURCE
#include "calls.h"
#include <signal.h>
#include <sys/mman.h>
#include <sys/time.h>
#include <unistd.h>

/* Under valgrind the bytes beside what is lent are not to be read either, and the wheel's padding is nothing to decide by. */
#ifdef __has_include
#if __has_include(<valgrind/memcheck.h>)
#include <valgrind/memcheck.h>
#endif
#endif
#ifndef VALGRIND_MAKE_MEM_NOACCESS
#define VALGRIND_MAKE_MEM_NOACCESS(at, bytes) ((void)(at), (void)(bytes))
#define VALGRIND_MAKE_MEM_UNDEFINED(at, bytes) ((void)(at), (void)(bytes))
#define VALGRIND_MAKE_MEM_DEFINED(at, bytes) ((void)(at), (void)(bytes))
#endif

static const char usage[] = "usage: stress [--seed N] [--calls N]\n";

#define PAGE 4096
#define TRAPS 4             /* pages that trap, on each side of a room's page */
#define ENOUGH_CALLS 500000 /* so many calls must see everything that is counted below */
#define PATIENCE 10         /* seconds for one call */
#define MEMORY_BYTES (PELLA_WORDS * sizeof(uint32_t))

static uint64_t seed = 1, calls = 1000000;
static volatile uint64_t call_number;

/* ---- what is lent, and what a call makes of it */

struct state {
    uint32_t words[PELLA_WORDS];
    uint32_t clock;
    uint8_t mark;
    uint32_t last_ticket;
    uint8_t block[BLOCK_MOST];
};

/* An answer, member by member: the first one is the refusal, or the function's result. */
enum { REFUSED, TICKET, MOST_MEMBERS = 17 };
enum { S_SENT = 2, S_UNIT, S_LOOKED, S_CDB };
enum { F_ADDRESS = 2, F_CALLBACK, F_FOUND, F_WANTED };
enum { H_RESIDUAL = 2, H_STATUS, H_SCSI_STATUS, H_AUTOSENSE };
struct answer {
    uint32_t member[MOST_MEMBERS];
};

/* How a call is made: how many words it is told of, and where things lie in their pages. */
enum layout { AT_START, AT_END, BETWEEN, LAYOUTS };
struct manner {
    size_t words;
    enum layout layout;
    bool trapping; /* too few words, and whatever is lent lies where any touch traps: nothing is looked at then */
    bool null;     /* a block of 0 bytes is a null pointer */
};

/* ---- failures */

static const char *const kind_names[KINDS] = { "fresh", "take_in", "send", "report", "abort", "freeze", "release", "tick", "reset",
                                               "look", "hand_back" };
static const char *const layout_names[LAYOUTS] = { "at a page's start", "at a page's end", "within a page" };

/* The call being made, for whoever has to tell of it. */
static struct {
    struct call call;
    struct manner manner;
    const struct state *before;
    const char *memory;
} now;

/* Tells of the call, and ends the program. Also from a signal's handler: the library, which was interrupted, doesn't print. */
static void fail(const char *what) {
    const struct call *call = &now.call;
    char text[1000];
    int length = snprintf(text, sizeof text,
                          "stress: seed %llu, call %llu: %s\n"
                          "stress: it was pella_%s on %s: %zu words, lent %s; ticket %u, unit %u, kind %u, SCSI status %u, sense %u, "
                          "moved %u, block of %zu bytes; clock %u, mark %u, last ticket %u\n",
                          (unsigned long long)seed, (unsigned long long)call_number, what, kind_names[call->kind], now.memory,
                          now.manner.words, now.manner.trapping ? "where any touch traps" : layout_names[now.manner.layout],
                          call->ticket, call->unit, call->event, call->scsi_status, call->sense, call->moved, call->length,
                          now.before->clock, now.before->mark, now.before->last_ticket);
    if (write(STDOUT_FILENO, text, (size_t)length) < 0)
        _exit(3);
    _exit(1);
}

static void must(bool holds, const char *what) {
    if (!holds)
        fail(what);
}

static void on_trap(int signal) {
    (void)signal;
    fail("the call trapped");
}

/* Once a second: is it still the same call? */
static void on_second(int signal) {
    static uint64_t last = 0, seconds = 0;
    (void)signal;
    seconds = call_number == last ? seconds + 1 : 0;
    last = call_number;
    if (seconds >= PATIENCE)
        fail("the call doesn't end");
}

static void set_handlers(void) {
    static const int traps[] = { SIGSEGV, SIGBUS, SIGILL, SIGFPE, SIGABRT };
    struct itimerval second = { { 1, 0 }, { 1, 0 } };
    struct sigaction action;
    memset(&action, 0, sizeof action);
    action.sa_handler = on_trap;
    for (size_t i = 0; i < sizeof traps / sizeof traps[0]; i++)
        sigaction(traps[i], &action, NULL);
    action.sa_handler = on_second;
    action.sa_flags = SA_RESTART;
    sigaction(SIGALRM, &action, NULL);
    setitimer(ITIMER_REAL, &second, NULL);
}

/* ---- rooms: a page each, between pages that trap, full of noise but for what is lent */

struct room {
    uint8_t *page;
    size_t at, bytes;
};
static struct room memory_room, wheel_room, ticket_room, block_room;
static struct room *const rooms[] = { &memory_room, &wheel_room, &ticket_room, &block_room };
static uint8_t page_of_noise[PAGE];
static uint8_t *traps_only;

static uint8_t *pages(size_t bytes, int protection) {
    void *at = mmap(NULL, bytes, protection, MAP_PRIVATE | MAP_ANONYMOUS, -1, 0);
    if (at == MAP_FAILED) {
        perror("stress: mmap");
        exit(2);
    }
    return (uint8_t *)at;
}

static void make_rooms(void) {
    if (sysconf(_SC_PAGESIZE) != PAGE) {
        fprintf(stderr, "stress: pages of %d bytes are needed\n", PAGE);
        exit(2);
    }
    noise(page_of_noise, PAGE);
    traps_only = pages(TRAPS * PAGE, PROT_NONE);
    for (size_t i = 0; i < sizeof rooms / sizeof rooms[0]; i++) {
        uint8_t *page = pages((2 * TRAPS + 1) * PAGE, PROT_NONE) + TRAPS * PAGE;
        mprotect(page, PAGE, PROT_READ | PROT_WRITE);
        memcpy(page, page_of_noise, PAGE);
        rooms[i]->page = page;
    }
}

/* Puts something into a room, in place of what lay there, and gives the pointer that is lent. */
static void *lend(struct room *room, const void *what, size_t bytes, size_t alignment, enum layout layout) {
    memcpy(room->page + room->at, page_of_noise + room->at, room->bytes);
    room->bytes = bytes;
    switch (layout) {
    case AT_START: room->at = 0; break;
    case AT_END: room->at = PAGE - bytes; break;
    default: room->at = alignment * (1 + below((uint32_t)((PAGE - bytes) / alignment - 1))); break;
    }
    memcpy(room->page + room->at, what, bytes);
    return room->page + room->at;
}

/* Before a call: a look may only read the memory, and no call may read what lies beside, though only valgrind sees that within a page. */
static void close_rooms(enum kind kind) {
    if (kind == LOOK)
        mprotect(memory_room.page, PAGE, PROT_READ);
    for (size_t i = 0; i < sizeof rooms / sizeof rooms[0]; i++) {
        size_t end = rooms[i]->at + rooms[i]->bytes;
        VALGRIND_MAKE_MEM_NOACCESS(rooms[i]->page, rooms[i]->at);
        VALGRIND_MAKE_MEM_NOACCESS(rooms[i]->page + end, PAGE - end);
    }
    size_t padding = offsetof(struct pella_wheel, mark) + 1;
    VALGRIND_MAKE_MEM_UNDEFINED(wheel_room.page + wheel_room.at + padding, sizeof(struct pella_wheel) - padding);
}

/* After it: all that lies beside is as it was. */
static void open_rooms(enum kind kind) {
    for (size_t i = 0; i < sizeof rooms / sizeof rooms[0]; i++) {
        const uint8_t *page = rooms[i]->page;
        size_t at = rooms[i]->at, end = at + rooms[i]->bytes;
        VALGRIND_MAKE_MEM_DEFINED(page, at);
        VALGRIND_MAKE_MEM_DEFINED(page + end, PAGE - end);
        must(memcmp(page, page_of_noise, at) == 0, "a byte before what was lent was altered");
        must(memcmp(page + end, page_of_noise + end, PAGE - end) == 0, "a byte behind what was lent was altered");
    }
    if (kind == LOOK)
        mprotect(memory_room.page, PAGE, PROT_READ | PROT_WRITE);
}

/* ---- making a call */

/* A truth value as a number, or another if it is neither 0 nor 1. */
static uint32_t truth(const bool *at) {
    uint8_t byte;
    memcpy(&byte, at, 1);
    return byte;
}

static struct answer of_sent(const struct pella_sent *sent) {
    struct answer answer = { { sent->refused, sent->ticket, truth(&sent->sent), sent->unit, sent->looked } };
    for (int i = 0; i < 12; i++)
        answer.member[S_CDB + i] = sent->cdb[i];
    return answer;
}

static struct answer of_first(const struct pella_first *first) {
    struct answer answer = { { first->refused, first->ticket, first->address, first->callback, truth(&first->found),
                               truth(&first->wanted) } };
    return answer;
}

static struct answer of_handed(const struct pella_handed *handed) {
    struct answer answer = { { handed->refused, handed->ticket, (uint32_t)handed->residual, handed->status, handed->scsi_status,
                               handed->autosense_residual } };
    return answer;
}

/* What a call is lent. */
struct lent {
    uint32_t *memory;
    struct pella_wheel *wheel;
    uint32_t *last_ticket;
    uint8_t *block;
};

static struct answer invoke(const struct call *call, size_t words, const struct lent *lent) {
    struct answer answer = { { 0 } };
    switch (call->kind) {
    case FRESH: answer.member[0] = pella_fresh(lent->memory, words); return answer;
    case TAKE_IN: {
        struct pella_taken taken = pella_take_in(lent->memory, words, lent->block, call->length, lent->last_ticket);
        answer.member[REFUSED] = taken.refused;
        answer.member[TICKET] = taken.ticket;
        return answer;
    }
    case SEND: {
        struct pella_sent sent = pella_send(lent->memory, words, lent->wheel);
        return of_sent(&sent);
    }
    case REPORT:
        answer.member[0] = pella_report(lent->memory, words, call->ticket, call->event, call->scsi_status, call->sense, call->moved);
        return answer;
    case ABORT: answer.member[0] = pella_abort(lent->memory, words, call->ticket); return answer;
    case FREEZE: answer.member[0] = pella_freeze(lent->memory, words, call->unit); return answer;
    case RELEASE: answer.member[0] = pella_release(lent->memory, words, call->unit); return answer;
    case TICK: answer.member[0] = pella_tick(lent->memory, words, lent->wheel); return answer;
    case RESET: answer.member[0] = pella_reset(lent->memory, words); return answer;
    case LOOK: {
        struct pella_first first = pella_look(lent->memory, words);
        return of_first(&first);
    }
    default: {
        struct pella_handed handed = pella_hand_back(lent->memory, words, lent->block, call->length);
        return of_handed(&handed);
    }
    }
}

/* Lends everything, of which the call takes what it needs. The wheel's padding is noise. */
static struct lent lend_all(const struct state *state, size_t length, const struct manner *manner) {
    struct pella_wheel wheel;
    memset(&wheel, (int)below(256), sizeof wheel);
    wheel.clock = state->clock;
    wheel.mark = state->mark;
    struct lent lent;
    lent.memory = (uint32_t *)lend(&memory_room, state->words, MEMORY_BYTES, sizeof(uint32_t), manner->layout);
    lent.wheel = (struct pella_wheel *)lend(&wheel_room, &wheel, sizeof wheel, sizeof(uint32_t), manner->layout);
    lent.last_ticket = (uint32_t *)lend(&ticket_room, &state->last_ticket, sizeof(uint32_t), sizeof(uint32_t), manner->layout);
    lent.block = (uint8_t *)lend(&block_room, state->block, length, 1, manner->layout);
    if (manner->trapping) {
        lent.memory = (uint32_t *)traps_only + below(PAGE);
        lent.wheel = (struct pella_wheel *)traps_only + below(PAGE / 2);
        lent.last_ticket = (uint32_t *)traps_only + below(PAGE);
        lent.block = traps_only + below(PAGE);
    }
    if (manner->null && length == 0)
        lent.block = NULL;
    return lent;
}

/* What the rooms hold after a call. */
static void take_back(struct state *after, size_t length) {
    struct pella_wheel wheel;
    memcpy(after->words, memory_room.page + memory_room.at, MEMORY_BYTES);
    memcpy(&wheel, wheel_room.page + wheel_room.at, sizeof wheel);
    memcpy(&after->last_ticket, ticket_room.page + ticket_room.at, sizeof after->last_ticket);
    memcpy(after->block, block_room.page + block_room.at, length);
    after->clock = wheel.clock;
    after->mark = wheel.mark;
}

static struct answer make_call(const struct call *call, const struct state *before, const struct manner *manner, struct state *after) {
    now.call = *call;
    now.manner = *manner;
    now.before = before;
    struct lent lent = lend_all(before, call->length, manner);
    close_rooms(call->kind);
    struct answer answer = invoke(call, manner->words, &lent);
    open_rooms(call->kind);
    take_back(after, call->length);
    return answer;
}

/* ---- what was seen, so that a run can't go shallow unseen */

enum sight {
    ACCEPTED,
    SENT,
    NOTHING_AT_0,
    NOTHING_AT_64,
    REPORTED,
    ABORTED,
    FROZEN_ANEW,
    FROZEN_AGAIN,
    RELEASED_FROZEN,
    RELEASED_FREE,
    LOOKED_WANTED,
    LOOKED_UNWANTED,
    LOOKED_EMPTY,
    HANDED_SHORT,
    HANDED_WHOLE,
    HANDED_OVER,
    SIGHTS
};
static const char *const sight_names[SIGHTS] = {
    [ACCEPTED] = "a request accepted",
    [SENT] = "a request sent",
    [NOTHING_AT_0] = "nothing sent, none looked at",
    [NOTHING_AT_64] = "nothing sent, 64 looked at",
    [REPORTED] = "an event accepted",
    [ABORTED] = "an abort accepted",
    [FROZEN_ANEW] = "a unit frozen",
    [FROZEN_AGAIN] = "a frozen unit frozen",
    [RELEASED_FROZEN] = "a frozen unit released",
    [RELEASED_FREE] = "a unit released that wasn't frozen",
    [LOOKED_WANTED] = "a look that finds a wanted callback",
    [LOOKED_UNWANTED] = "a look that finds an unwanted callback",
    [LOOKED_EMPTY] = "a look that finds nothing",
    [HANDED_SHORT] = "a hand-back with bytes missing",
    [HANDED_WHOLE] = "a hand-back with residual 0",
    [HANDED_OVER] = "a hand-back with bytes too many",
};
static const uint8_t refusals[] = {
    PELLA_REFUSED_UNABLE_TO_ABORT, PELLA_REFUSED_CAM_BUSY, PELLA_REFUSED_INVALID_REQUEST, PELLA_REFUSED_INVALID_PATH,
    PELLA_REFUSED_LENGTH_INADEQUATE, PELLA_REFUSED_CANNOT_PROVIDE, PELLA_REFUSED_NOT_ACTIVE, PELLA_REFUSED_IMPLAUSIBLE,
    PELLA_REFUSED_NO_SUCH_UNIT, PELLA_REFUSED_NONE_FINISHED, PELLA_REFUSED_NOT_ITS_BLOCK, PELLA_REFUSED_TOO_FEW_WORDS,
    PELLA_REFUSED_NO_SUCH_EVENT, PELLA_REFUSED_NO_SUCH_STATUS, PELLA_REFUSED_NO_SUCH_SENSE,
};
/* The status bytes that can occur on a desk, and no others: docs/REPLAY.md. */
static const uint8_t statuses[] = { 0x01, 0x41, 0x02, 0x42, 0x44, 0xC4, 0x4A, 0x4B, 0xCB, 0x4E, 0x4F, 0x50, 0x52, 0xD2, 0x53, 0x54, 0x59 };

static uint64_t kinds_seen[KINDS], refusals_seen[256], lengths_seen[BLOCK_MOST + 1];
static uint64_t wild_seen[SIGHTS], desk_seen[SIGHTS], statuses_seen[256];

static enum sight sight_of(enum kind kind, const uint32_t *member) {
    switch (kind) {
    case TAKE_IN: return ACCEPTED;
    case SEND: return member[S_SENT] ? SENT : member[S_LOOKED] == 0 ? NOTHING_AT_0 : NOTHING_AT_64;
    case REPORT: return REPORTED;
    case ABORT: return ABORTED;
    case FREEZE: return member[0] ? FROZEN_AGAIN : FROZEN_ANEW;
    case RELEASE: return member[0] ? RELEASED_FROZEN : RELEASED_FREE;
    case LOOK: return !member[F_FOUND] ? LOOKED_EMPTY : member[F_WANTED] ? LOOKED_WANTED : LOOKED_UNWANTED;
    case HAND_BACK: return member[H_RESIDUAL] == 0 ? HANDED_WHOLE : member[H_RESIDUAL] >> 31 ? HANDED_OVER : HANDED_SHORT;
    default: return SIGHTS;
    }
}

/* Freeze and release answer 0 or 1; anything else than 0 is a refusal elsewhere. */
static uint32_t refusal_in(enum kind kind, const struct answer *answer) {
    uint32_t number = answer->member[REFUSED];
    return (kind == FREEZE || kind == RELEASE) && number == 1 ? 0 : number;
}

static void note(const struct call *call, const struct answer *answer, uint64_t *sights_seen) {
    uint32_t refused = refusal_in(call->kind, answer);
    enum sight sight = refused == 0 ? sight_of(call->kind, answer->member) : SIGHTS;
    kinds_seen[call->kind]++;
    refusals_seen[refused]++;
    if (sight != SIGHTS)
        sights_seen[sight]++;
    if (call->kind == TAKE_IN || call->kind == HAND_BACK)
        lengths_seen[call->length]++;
}

/* 1 if something was never seen, and 0 if it was. */
static int gap(uint64_t times, const char *what) {
    if (times == 0)
        printf("stress: seed %llu, %llu calls, and never seen: %s\n", (unsigned long long)seed, (unsigned long long)calls, what);
    return times == 0;
}

static const char *named(const char *format, uint32_t number) {
    static char text[40];
    snprintf(text, sizeof text, format, number);
    return text;
}

/* Whether everything was seen. */
static bool deep(void) {
    int gaps = 0;
    for (size_t i = 0; i < sizeof refusals; i++)
        gaps += gap(refusals_seen[refusals[i]], named(refusals[i] < 100 ? "refusal %02Xh" : "refusal %u", refusals[i]));
    for (size_t i = 0; i < sizeof statuses; i++)
        gaps += gap(statuses_seen[statuses[i]], named("status %02Xh on a desk", statuses[i]));
    for (uint32_t length = 0; length <= BLOCK_MOST; length++)
        gaps += gap(lengths_seen[length], named("a block of %u bytes", length));
    for (int kind = 0; kind < KINDS; kind++)
        gaps += gap(kinds_seen[kind], kind_names[kind]);
    for (int sight = 0; sight < SIGHTS; sight++)
        gaps += gap(desk_seen[sight], sight_names[sight]) + gap(wild_seen[sight], sight_names[sight]);
    return gaps == 0;
}

static void summary(void) {
    printf("stress: seed %llu, %llu calls:", (unsigned long long)seed, (unsigned long long)calls);
    for (int kind = 0; kind < KINDS; kind++)
        printf(" %s %llu,", kind_names[kind], (unsigned long long)kinds_seen[kind]);
    printf(" refused:");
    for (size_t i = 0; i < sizeof refusals; i++)
        printf(refusals[i] < 100 ? " %02Xh %llu," : " %u %llu,", refusals[i], (unsigned long long)refusals_seen[refusals[i]]);
    printf(" all as the header says\n");
}

/* ---- what the header promises of every memory */

/* The numbers that a report is refused for whatever the memory holds. */
static uint32_t refusal_of_event(const struct call *call) {
    switch (call->event) {
    case PELLA_EVENT_COMPLETE:
        return call->scsi_status > 255 ? PELLA_REFUSED_NO_SUCH_STATUS : call->sense > PELLA_SENSE_NONE ? PELLA_REFUSED_NO_SUCH_SENSE : 0;
    case PELLA_EVENT_ABORT_DONE:
    case PELLA_EVENT_SELECTION_TIMEOUT:
    case PELLA_EVENT_PARITY:
    case PELLA_EVENT_BUS_FREE:
    case PELLA_EVENT_PHASE:
    case PELLA_EVENT_ADAPTER_ERROR: return 0;
    default: return PELLA_REFUSED_NO_SUCH_EVENT;
    }
}

/* A fresh board, from any words: nothing finished, no unit frozen, nothing to send. */
static void check_fresh(const struct state *after) {
    static uint32_t words[PELLA_WORDS];
    struct pella_wheel wheel = PELLA_FRESH_WHEEL;
    memcpy(words, after->words, MEMORY_BYTES);
    must(!pella_look(words, PELLA_WORDS).found, "fresh: something is finished");
    for (uint32_t unit = 0; unit < PELLA_UNITS; unit++)
        must(pella_release(words, PELLA_WORDS, unit) == 0, "fresh: a unit is frozen");
    struct pella_sent sent = pella_send(words, PELLA_WORDS, &wheel);
    must(!sent.sent && sent.looked == PELLA_UNITS, "fresh: something waits or is active");
}

static bool same_words(const struct state *a, const struct state *b) { return memcmp(a->words, b->words, MEMORY_BYTES) == 0; }

static void check_refused(const struct state *before, const struct state *after, const struct answer *answer) {
    for (int i = 1; i < MOST_MEMBERS; i++)
        must(answer->member[i] == 0, "refused, and another member is not 0");
    must(same_words(before, after), "refused, and the memory was altered");
    must(before->clock == after->clock && before->mark == after->mark, "refused, and the wheel was altered");
    must(before->last_ticket == after->last_ticket, "refused, and the last ticket was altered");
}

static void check_taken(const struct call *call, const struct state *before, const struct state *after, const struct answer *answer) {
    uint32_t refused = answer->member[REFUSED], own = refusal_of(call->block, call->length);
    if (own != 0)
        must(refused == own, "take_in: another number than the block's fields call for");
    else
        must(refused == 0 || refused == PELLA_REFUSED_CAM_BUSY || refused == PELLA_REFUSED_INVALID_REQUEST,
             "take_in: refused a good block");
    if (refused != 0)
        return;
    must(before->last_ticket != UINT32_MAX, "take_in: accepted after the last ticket");
    must(answer->member[TICKET] == before->last_ticket + 1, "take_in: not the next ticket");
    must(after->last_ticket == answer->member[TICKET], "take_in: the last ticket is not the one given");
}

static void check_sent(const struct state *before, const struct state *after, const struct answer *answer) {
    const uint32_t *member = answer->member;
    must(member[REFUSED] == 0, "send: refused");
    must(member[S_SENT] <= 1, "send: `sent` is neither true nor false");
    must(member[S_LOOKED] <= PELLA_UNITS, "send: more than all units looked at");
    if (member[S_SENT]) {
        must(member[S_UNIT] < PELLA_UNITS, "send: no such unit");
        must(member[S_LOOKED] >= 1, "send: sent, and no unit looked at");
        must(after->mark == member[S_UNIT], "send: the mark is not the unit");
    } else {
        must(same_words(before, after), "send: nothing sent, and the memory was altered");
        must(after->mark == before->mark, "send: nothing sent, and the mark was altered");
    }
}

static void check_reported(const struct call *call, const struct answer *answer) {
    uint32_t refused = answer->member[REFUSED], own = refusal_of_event(call);
    if (own != 0)
        must(refused == own, "report: 202 to 204 not as the numbers call for");
    else if (call->moved > 0x7FFFFFFF)
        must(refused == PELLA_REFUSED_NOT_ACTIVE || refused == PELLA_REFUSED_IMPLAUSIBLE,
             "report: neither 101 nor 102, and too many bytes moved");
    else
        must(refused == 0 || refused == PELLA_REFUSED_NOT_ACTIVE || refused == PELLA_REFUSED_IMPLAUSIBLE,
             "report: an answer that it hasn't");
}

/* Freezes or releases a unit in a copy of the words: 1 if it was frozen before. */
static bool was_frozen(enum kind kind, uint32_t *words, uint32_t unit) {
    uint32_t answer = (kind == FREEZE ? pella_freeze : pella_release)(words, PELLA_WORDS, unit);
    must(answer <= 1, "freeze or release: an answer that it hasn't");
    return answer == 1;
}

/* After a freeze a unit is frozen, after a release it isn't: doing it again tells. */
static void check_frozen(const struct call *call, const struct state *after, const struct answer *answer) {
    static uint32_t words[PELLA_WORDS];
    bool frozen = call->kind == FREEZE;
    must((answer->member[0] == PELLA_REFUSED_NO_SUCH_UNIT) == (call->unit >= PELLA_UNITS), "103 and the unit disagree");
    if (call->unit >= PELLA_UNITS)
        return;
    must(answer->member[0] <= 1, "freeze or release: an answer that it hasn't");
    memcpy(words, after->words, MEMORY_BYTES);
    must(was_frozen(FREEZE, words, call->unit) == frozen, "the unit is not frozen after a freeze, or is after a release");
    must(was_frozen(RELEASE, words, call->unit), "the unit is not frozen after a freeze");
    must(!was_frozen(FREEZE, words, call->unit), "the unit is frozen after a release");
}

/* The look and the hand-back agree on what is first. */
static void check_handed(const struct call *call, const struct state *before, const struct answer *answer) {
    struct pella_first first = pella_look(before->words, PELLA_WORDS);
    uint32_t refused = answer->member[REFUSED];
    if (!first.found)
        must(refused == PELLA_REFUSED_NONE_FINISHED, "hand_back: not 104, and the look finds nothing");
    else if (call->length < PELLA_BLOCK_BYTES || address_of(call->block) != first.address)
        must(refused == PELLA_REFUSED_NOT_ITS_BLOCK, "hand_back: not 105, and the block is too short or another one");
    else
        must(refused == 0 && answer->member[TICKET] == first.ticket, "hand_back: refused, or not the ticket that the look finds");
}

/* Byte by byte: what a call leaves in the block. */
static void check_block(const struct call *call, const struct state *after, const struct answer *answer) {
    const uint32_t *member = answer->member;
    uint8_t block[BLOCK_MOST];
    memcpy(block, call->block, call->length);
    if (call->kind == TAKE_IN && call->length >= 8 && member[REFUSED] != PELLA_REFUSED_TOO_FEW_WORDS)
        block[PELLA_AT_STATUS] = (uint8_t)member[REFUSED];
    if (call->kind == HAND_BACK && member[REFUSED] == 0) {
        block[PELLA_AT_STATUS] = (uint8_t)member[H_STATUS];
        block[PELLA_AT_SCSI_STATUS] = (uint8_t)member[H_SCSI_STATUS];
        block[PELLA_AT_AUTOSENSE_RESIDUAL] = (uint8_t)member[H_AUTOSENSE];
        put(block + PELLA_AT_RESIDUAL, member[H_RESIDUAL], 4);
    }
    must(memcmp(block, after->block, call->length) == 0, "the block's bytes are not as they should be");
}

static void check(const struct call *call, size_t words, const struct state *before, const struct state *after,
                  const struct answer *answer) {
    uint32_t refused = refusal_in(call->kind, answer);
    must((refused == PELLA_REFUSED_TOO_FEW_WORDS) == (words < PELLA_WORDS), "201 and the number of words disagree");
    check_block(call, after, answer);
    if (refused != 0)
        check_refused(before, after, answer);
    if (refused == PELLA_REFUSED_TOO_FEW_WORDS)
        return;
    if (call->kind == FRESH || call->kind == TICK || call->kind == RESET)
        must(refused == 0, "fresh, tick or reset: refused");
    must(after->clock == before->clock + (call->kind == TICK), "the clock is altered, or at a tick not by 1");
    must(after->mark == before->mark || call->kind == SEND, "the mark is altered");
    must(after->last_ticket == before->last_ticket || call->kind == TAKE_IN, "the last ticket is altered");
    switch (call->kind) {
    case FRESH: check_fresh(after); break;
    case TAKE_IN: check_taken(call, before, after, answer); break;
    case SEND: check_sent(before, after, answer); break;
    case REPORT: check_reported(call, answer); break;
    case ABORT: must(refused == 0 || refused == PELLA_REFUSED_UNABLE_TO_ABORT, "abort: an answer that it hasn't"); break;
    case FREEZE:
    case RELEASE: check_frozen(call, after, answer); break;
    case LOOK:
        must(refused == 0, "look: refused");
        must(same_words(before, after), "look: the memory was altered");
        must(answer->member[F_FOUND] <= 1 && answer->member[F_WANTED] <= 1, "look: neither true nor false");
        break;
    case HAND_BACK: check_handed(call, before, answer); break;
    default: break;
    }
}

/* ---- and of a desk: the answers agree with the books */

static void check_desk_taken(const struct call *call, const struct state *before, const struct answer *answer) {
    uint32_t refused = refusal_of(call->block, call->length);
    if (refused == 0 && address_is_live(address_of(call->block)))
        refused = PELLA_REFUSED_INVALID_REQUEST;
    else if (refused == 0 && (before->last_ticket == UINT32_MAX || how_many(NONE) == 0))
        refused = PELLA_REFUSED_CAM_BUSY;
    must(answer->member[REFUSED] == refused, "take_in on the desk: another number than the block and the live requests call for");
    if (refused == 0)
        enter(answer->member[TICKET], call->block, call->length);
}

static void check_desk_sent(const struct state *before, const struct answer *answer) {
    const uint32_t *member = answer->member;
    struct request *request = request_of(member[TICKET]);
    int active = how_many(ACTIVE);
    if (!member[S_SENT]) {
        must(member[S_LOOKED] == (active == PELLA_MOST_ACTIVE ? 0 : PELLA_UNITS), "send on the desk: nothing, and looked at is wrong");
        return;
    }
    must(active < PELLA_MOST_ACTIVE, "send on the desk: one too many is active");
    must(request != NULL && request->stage == WAITING, "send on the desk: the ticket doesn't wait");
    must(member[S_UNIT] == unit_of(request->block), "send on the desk: another unit than the block's");
    must(member[S_UNIT] == (before->mark + member[S_LOOKED]) % PELLA_UNITS, "send on the desk: looked at is wrong");
    for (int i = 0; i < 12; i++)
        must(member[S_CDB + i] == request->block[PELLA_AT_CDB + i], "send on the desk: the CDB is not the block's");
    enter_sent(request, before->clock);
}

static void check_desk_found(const struct answer *answer) {
    const uint32_t *member = answer->member;
    struct request *request = request_of(member[TICKET]);
    must(member[F_FOUND] == (how_many(FINISHED) > 0), "look on the desk: the finished line is empty, or isn't");
    if (!member[F_FOUND])
        return;
    must(request != NULL && request->stage == FINISHED, "look on the desk: the ticket isn't finished");
    must(member[F_ADDRESS] == address_of(request->block) && member[F_CALLBACK] == get(request->block + PELLA_AT_CALLBACK, 4) &&
             member[F_WANTED] == ((request->block[PELLA_AT_FLAGS] & PELLA_FLAG_CALLBACK_DISABLED) == 0),
         "look on the desk: address, callback or wanted are not the block's");
}

static void check_desk_handed(const struct answer *answer) {
    struct request *request = request_of(answer->member[TICKET]);
    uint8_t status = (uint8_t)answer->member[H_STATUS];
    must((answer->member[REFUSED] == PELLA_REFUSED_NONE_FINISHED) == (how_many(FINISHED) == 0), "hand_back on the desk: 104 is wrong");
    if (answer->member[REFUSED] != 0)
        return;
    must(request != NULL && request->stage == FINISHED, "hand_back on the desk: the ticket isn't finished");
    must(memchr(statuses, status, sizeof statuses) != NULL, "hand_back on the desk: a status that can't occur");
    must(answer->member[H_RESIDUAL] == data_length_of(request->block) - request->moved, "hand_back on the desk: the residual is wrong");
    must(answer->member[H_SCSI_STATUS] == request->scsi_status, "hand_back on the desk: the SCSI status is wrong");
    statuses_seen[status]++;
    request->stage = NONE;
}

static void check_desk(const struct call *call, const struct state *before, const struct answer *answer) {
    struct request *request = request_of(call->ticket);
    uint32_t refused = refusal_in(call->kind, answer);
    if (refused == PELLA_REFUSED_TOO_FEW_WORDS)
        return;
    switch (call->kind) {
    case FRESH: memset(books, 0, sizeof books); break;
    case TAKE_IN: check_desk_taken(call, before, answer); break;
    case SEND: check_desk_sent(before, answer); break;
    case REPORT:
        if (refusal_of_event(call) == 0)
            must((refused == PELLA_REFUSED_NOT_ACTIVE) == (request == NULL || request->stage != ACTIVE),
                 "report on the desk: 101 is wrong");
        if (refused == 0)
            enter_end(request, call->event, call->scsi_status, call->moved);
        break;
    case ABORT:
        must((refused != 0) == (request == NULL || request->stage == FINISHED), "abort on the desk: 03h is wrong");
        if (refused == 0)
            enter_abort(request);
        break;
    case RESET: enter_reset(); break;
    case LOOK: check_desk_found(answer); break;
    case HAND_BACK: check_desk_handed(answer); break;
    default: break;
    }
}

/* ---- calls by chance */

/* Enough words, as many as are needed or more, and what is more is noise or traps; or too few. */
static struct manner some_manner(bool enough) {
    struct manner manner = { PELLA_WORDS, (enum layout)below(LAYOUTS), false, false };
    manner.trapping = !enough && one_in(2);
    manner.null = one_in(2);
    if (!enough)
        manner.words = one_in(4) ? PELLA_WORDS - 1 : below(PELLA_WORDS);
    else if (one_in(4))
        manner.words += below(3000);
    else if (one_in(16))
        manner.words = ((size_t)1 << 32) + below(PELLA_WORDS); /* more than 32 bits count */
    return manner;
}

/* Makes the call twice, once in another manner and with other numbers where they aren't looked at, and checks it. */
static void try_call(const struct call *call, struct state *state, bool is_desk) {
    static struct state after, other_after;
    struct call variant = *call;
    struct manner manner = some_manner(!one_in(24));
    struct manner other = some_manner(manner.words >= PELLA_WORDS);
    other.layout = (enum layout)((manner.layout + 1 + below(2)) % LAYOUTS);
    if (call->kind == REPORT && call->event != PELLA_EVENT_COMPLETE) {
        variant.scsi_status = any_number();
        variant.sense = any_number();
    }
    memcpy(state->block, call->block, call->length);

    struct answer other_answer = make_call(&variant, state, &other, &other_after);
    check(&variant, other.words, state, &other_after, &other_answer);
    struct answer answer = make_call(call, state, &manner, &after);
    check(call, manner.words, state, &after, &answer);
    must(memcmp(&answer, &other_answer, sizeof answer) == 0, "another answer when the same is lent elsewhere");
    must(same_words(&after, &other_after) && after.clock == other_after.clock && after.mark == other_after.mark &&
             after.last_ticket == other_after.last_ticket && memcmp(after.block, other_after.block, call->length) == 0,
         "something else is left when the same is lent elsewhere");
    if (is_desk)
        check_desk(call, state, &answer);
    note(call, &answer, is_desk ? desk_seen : wild_seen);
    *state = after;
}

/* Makes some of a call's numbers anything. */
static void spoil(struct call *call) {
    uint32_t *const numbers[] = { &call->ticket, &call->unit, &call->event, &call->scsi_status, &call->sense, &call->moved };
    for (int i = 0; i < 2; i++) {
        uint32_t *number = PICK(numbers);
        *number = any_number();
    }
    if ((call->kind == TAKE_IN || call->kind == HAND_BACK) && one_in(4)) {
        call->length = below(BLOCK_MOST + 1);
        noise(call->block, call->length);
    }
}

/* A hand-back's block: that of the first finished request, or of some other one. */
static void find_block(struct call *call, const struct state *state) {
    struct pella_first first = pella_look(state->words, PELLA_WORDS);
    const struct request *request = first.found && !one_in(8) ? request_of(first.ticket) : some_request((enum stage)below(4));
    if (request == NULL || request->length < PELLA_BLOCK_BYTES)
        return;
    call->length = one_in(16) ? below(PELLA_BLOCK_BYTES + 1) : request->length;
    memcpy(call->block, request->block, call->length);
}

/* One call on the desk, which is made anew now and then. It may be as old as a desk can get: its clock wraps soon, its tickets end. */
static void call_desk(struct state *desk) {
    static struct call call;
    some_call(&call, one_in(5000) ? FRESH : some_kind(), BLOCK_MOST);
    if (call.kind == HAND_BACK)
        find_block(&call, desk);
    if (one_in(8))
        spoil(&call);
    now.memory = "a desk";
    try_call(&call, desk, true);
    if (call.kind == FRESH && how_many(NONE) == PELLA_MOST_LIVE) {
        desk->clock = one_in(2) ? 0 : UINT32_MAX - below(100);
        desk->mark = 63;
        desk->last_ticket = one_in(10) ? UINT32_MAX - below(500) : 0;
    }
}

/* A memory that no calls made, with any wheel and any last ticket. */
static void make_wild(struct state *wild, const struct state *desk) {
    uint32_t same = any_number();
    *wild = *desk;
    switch (below(5)) {
    case 0:
        now.memory = "noise";
        for (int i = 0; i < PELLA_WORDS; i++)
            wild->words[i] = chance();
        break;
    case 1:
        now.memory = "small words";
        for (int i = 0; i < PELLA_WORDS; i++)
            wild->words[i] = below(71);
        break;
    case 2:
        now.memory = "words all alike";
        for (int i = 0; i < PELLA_WORDS; i++)
            wild->words[i] = same;
        break;
    default:
        now.memory = "a desk with some words wrong";
        for (uint32_t left = 1 + below(8); left > 0; left--) {
            uint32_t *word = &wild->words[below(PELLA_WORDS)];
            *word = one_in(2) ? below(71) : any_number();
        }
        break;
    }
    wild->clock = any_number();
    wild->mark = (uint8_t)any_number();
    wild->last_ticket = any_number();
}

/* One call on such a memory: tickets and addresses are found in its words. */
static void call_wild(struct state *wild, const struct state *desk) {
    static const char *memory;
    static struct call call;
    if (memory == NULL || one_in(8)) {
        make_wild(wild, desk);
        memory = now.memory;
    }
    now.memory = memory;
    some_call(&call, one_in(2) ? some_kind() : (enum kind)below(KINDS), BLOCK_MOST);
    if (call.kind == HAND_BACK)
        call.length = some_block(call.block, BLOCK_MOST);
    if (one_in(2))
        call.ticket = wild->words[below(PELLA_WORDS)];
    if (one_in(4))
        spoil(&call);
    if (call.length >= 4 && !one_in(4))
        put(call.block, call.kind == HAND_BACK ? pella_look(wild->words, PELLA_WORDS).address : wild->words[below(PELLA_WORDS)], 4);
    try_call(&call, wild, false);
}

int main(int argc, char **argv) {
    static struct state desk, wild;
    for (int i = 1; i < argc; i += 2) {
        if (i + 1 < argc && strcmp(argv[i], "--seed") == 0)
            seed = number_of(argv[i + 1], usage);
        else if (i + 1 < argc && strcmp(argv[i], "--calls") == 0)
            calls = number_of(argv[i + 1], usage);
        else {
            fputs(usage, stderr);
            return 2;
        }
    }
    chance_state = seed;
    make_rooms();
    now.before = &desk;
    now.memory = "a desk";
    set_handlers();

    desk.mark = 63;
    must(pella_fresh(desk.words, PELLA_WORDS) == 0, "the first fresh: refused");
    for (call_number = 1; call_number <= calls; call_number++) {
        if (one_in(2))
            call_desk(&desk);
        else
            call_wild(&wild, &desk);
    }
    summary();
    return calls < ENOUGH_CALLS || deep() ? 0 : 1;
}
