/*
 * calls.h: calls by chance on a desk, the same for the same seed, and the books of what became of the requests. What stress.c and
 * session.c have in common. Calls are chosen so that a desk gets full and empty again, and so that most of them are not refused.
 */
#ifndef CALLS_H
#define CALLS_H

#include <pellacrosta.h>
#include <stdio.h>
#include <stdlib.h>
#include <string.h>

/* A number of the command line. One that is none ends the program, with how it is to be called. */
static inline uint64_t number_of(const char *text, const char *usage) {
    char *end;
    uint64_t number = strtoull(text, &end, 10);
    if (*text < '0' || *text > '9' || *end != 0) {
        fputs(usage, stderr);
        exit(2);
    }
    return number;
}

/* ---- chance (splitmix64). No expression asks it twice but one after the other, so that a seed means the same to every compiler. */

static uint64_t chance_state;

static inline uint32_t chance(void) {
    uint64_t mixed = chance_state += 0x9E3779B97F4A7C15;
    mixed = (mixed ^ (mixed >> 30)) * 0xBF58476D1CE4E5B9;
    mixed = (mixed ^ (mixed >> 27)) * 0x94D049BB133111EB;
    return (uint32_t)(mixed >> 32);
}

static inline uint32_t below(uint32_t bound) { return (uint32_t)(((uint64_t)chance() * bound) >> 32); }
static inline bool one_in(uint32_t bound) { return below(bound) == 0; }

/* One of an array's members. */
#define PICK(array) ((array)[below(sizeof(array) / sizeof((array)[0]))])

/* A number near one of the edges that the header names, or any. */
static inline uint32_t any_number(void) {
    static const uint32_t edges[] = { 0, 1, 8, 32, 63, 64, 70, 88, 255, 256, 257, 0xFFFFFF, 0x7FFFFFFF, 0x80000000, 0xFFFFFFFF };
    uint32_t edge = PICK(edges);
    return one_in(2) ? edge - 1 + below(3) : one_in(2) ? below(256) : chance();
}

static inline void noise(uint8_t *at, size_t bytes) {
    for (size_t i = 0; i < bytes; i++)
        at[i] = (uint8_t)chance();
}

/* ---- blocks: numbers in them are little-endian */

#define BLOCK_MOST 300 /* the longest one that is lent here */

static inline void put(uint8_t *at, uint32_t number, int bytes) {
    for (int i = 0; i < bytes; i++)
        at[i] = (uint8_t)(number >> 8 * i);
}

static inline uint32_t get(const uint8_t *at, int bytes) {
    uint32_t number = 0;
    for (int i = 0; i < bytes; i++)
        number |= (uint32_t)at[i] << 8 * i;
    return number;
}

static inline uint32_t address_of(const uint8_t *block) { return get(block + PELLA_AT_ADDRESS, 4); }
static inline uint32_t unit_of(const uint8_t *block) { return PELLA_UNIT(block[PELLA_AT_TARGET], block[PELLA_AT_LUN]); }
static inline uint32_t data_length_of(const uint8_t *block) { return get(block + PELLA_AT_DATA_LENGTH, 4); }

/* A block that no check refuses: `length` bytes of it are written. */
static inline void good_block(uint8_t *block, size_t length) {
    static const uint32_t data_lengths[] = { 0, 1, 64, 512, 4096, 0xFFFFFF };
    static const uint8_t sense_lengths[] = { 0, 1, 18, 32, 255 };
    static const uint32_t timeouts[] = { 0, 1, 2, 3, 5, 0xFFFFFFFE, 0xFFFFFFFF };
    bool few_units = one_in(2);
    noise(block, length);
    put(block + PELLA_AT_ADDRESS, 0x1000 + 16 * below(200), 4);
    put(block + PELLA_AT_LENGTH, PELLA_BLOCK_BYTES + below((uint32_t)length - PELLA_BLOCK_BYTES + 1), 2);
    block[PELLA_AT_FUNCTION] = 0x01;
    block[PELLA_AT_PATH] = 0;
    block[PELLA_AT_TARGET] = (uint8_t)below(few_units ? 2 : 7);
    block[PELLA_AT_LUN] = (uint8_t)below(few_units ? 3 : 8);
    block[PELLA_AT_FLAGS] &= (uint8_t)~PELLA_FLAGS_REFUSED;
    put(block + PELLA_AT_DATA_LENGTH, one_in(3) ? below(0x1000000) : PICK(data_lengths), 4);
    block[PELLA_AT_SENSE_LENGTH] = one_in(3) ? (uint8_t)chance() : PICK(sense_lengths);
    block[PELLA_AT_CDB_LENGTH] = (uint8_t)(1 + below(12));
    put(block + PELLA_AT_TIMEOUT, PICK(timeouts), 4);
}

/* Makes one field of it wrong, or nearly. */
static inline void spoil_block(uint8_t *block, size_t *length) {
    static const uint8_t refused_flags[] = { 0x10, 0x04, 0x02, 0x01 };
    switch (below(9)) {
    case 0: block[PELLA_AT_FUNCTION] = (uint8_t)any_number(); break;
    case 1: put(block + PELLA_AT_LENGTH, (uint32_t)*length + below(3) - 1, 2); break;
    case 2: put(block + PELLA_AT_LENGTH, any_number(), 2); break;
    case 3: block[PELLA_AT_PATH] = (uint8_t)any_number(); break;
    case 4: block[PELLA_AT_TARGET] = (uint8_t)(6 + below(3)); break;
    case 5: block[PELLA_AT_LUN] = (uint8_t)(7 + below(3)); break;
    case 6: block[PELLA_AT_FLAGS] |= PICK(refused_flags); break;
    case 7: block[PELLA_AT_CDB_LENGTH] = (uint8_t)any_number(); break;
    case 8: put(block + PELLA_AT_DATA_LENGTH, any_number(), 4); break;
    }
    if (one_in(8))
        *length = below(PELLA_BLOCK_BYTES + 1);
}

/* A block of at most so many bytes, as a driver, a careless driver or noise makes it. */
static inline size_t some_block(uint8_t *block, size_t most) {
    size_t length = one_in(3) ? PELLA_BLOCK_BYTES + below((uint32_t)most - PELLA_BLOCK_BYTES + 1) : PELLA_BLOCK_BYTES;
    good_block(block, length);
    if (one_in(6))
        spoil_block(block, &length);
    if (one_in(40)) {
        length = below((uint32_t)most + 1);
        noise(block, length);
    }
    return length;
}

/* What a block is refused for by itself, whatever the desk holds: docs/REPLAY.md has the order. 0 if for nothing. */
static inline uint32_t refusal_of(const uint8_t *block, size_t length) {
    if (length < 8)
        return PELLA_REFUSED_LENGTH_INADEQUATE;
    if (block[PELLA_AT_FUNCTION] != 0x01)
        return PELLA_REFUSED_INVALID_REQUEST;
    if (get(block + PELLA_AT_LENGTH, 2) < PELLA_BLOCK_BYTES || get(block + PELLA_AT_LENGTH, 2) > length)
        return PELLA_REFUSED_LENGTH_INADEQUATE;
    if (block[PELLA_AT_PATH] != 0)
        return PELLA_REFUSED_INVALID_PATH;
    if (block[PELLA_AT_TARGET] > 6 || block[PELLA_AT_LUN] > 7)
        return PELLA_REFUSED_INVALID_REQUEST;
    if (block[PELLA_AT_FLAGS] & PELLA_FLAGS_REFUSED)
        return PELLA_REFUSED_CANNOT_PROVIDE;
    if (block[PELLA_AT_CDB_LENGTH] == 0 || block[PELLA_AT_CDB_LENGTH] > 12)
        return PELLA_REFUSED_INVALID_REQUEST;
    return data_length_of(block) > 0xFFFFFF ? PELLA_REFUSED_CANNOT_PROVIDE : 0;
}

/* ---- the books: each live request with its block, as the desk's answers tell */

enum stage { NONE, WAITING, ACTIVE, FINISHED };

struct request {
    enum stage stage;
    uint32_t ticket;
    uint32_t start;              /* the clock when it was sent */
    uint32_t moved, scsi_status; /* as reported; 0 if nothing was */
    uint32_t base;               /* the base status of its end, if it wasn't overdue; 0 for a check condition */
    size_t length;
    uint8_t block[BLOCK_MOST];
};

static struct request books[PELLA_MOST_LIVE];

static inline struct request *request_of(uint32_t ticket) {
    for (int i = 0; i < PELLA_MOST_LIVE; i++)
        if (books[i].stage != NONE && books[i].ticket == ticket)
            return &books[i];
    return NULL;
}

static inline bool address_is_live(uint32_t address) {
    for (int i = 0; i < PELLA_MOST_LIVE; i++)
        if (books[i].stage != NONE && address_of(books[i].block) == address)
            return true;
    return false;
}

static inline int how_many(enum stage stage) {
    int count = 0;
    for (int i = 0; i < PELLA_MOST_LIVE; i++)
        count += books[i].stage == stage;
    return count;
}

/* One that is in this stage, by chance; null if none is. */
static inline struct request *some_request(enum stage stage) {
    uint32_t from = below(PELLA_MOST_LIVE);
    for (uint32_t i = 0; i < PELLA_MOST_LIVE; i++)
        if (books[(from + i) % PELLA_MOST_LIVE].stage == stage)
            return &books[(from + i) % PELLA_MOST_LIVE];
    return NULL;
}

/* Enters an accepted request: false if the books are full. */
static inline bool enter(uint32_t ticket, const uint8_t *block, size_t length) {
    struct request *request = some_request(NONE);
    if (request == NULL)
        return false;
    request->stage = WAITING;
    request->ticket = ticket;
    request->moved = 0;
    request->scsi_status = 0;
    request->base = 0;
    request->length = length;
    memcpy(request->block, block, length);
    return true;
}

/* Enters a request that was sent at this clock. */
static inline void enter_sent(struct request *request, uint32_t clock) {
    request->stage = ACTIVE;
    request->start = clock;
}

/* The base status of an event's end, if the request isn't overdue; 0 for a check condition, where it depends on the sense. */
static inline uint32_t base_of(const struct request *request, uint32_t event, uint32_t scsi_status, uint32_t moved) {
    if (event == PELLA_EVENT_ABORT_DONE)
        return PELLA_STATUS_ABORTED;
    if (event != PELLA_EVENT_COMPLETE)
        return event;
    if (moved > data_length_of(request->block))
        return PELLA_STATUS_OVERRUN;
    switch (scsi_status) {
    case 0x00: case 0x04: return PELLA_STATUS_DONE;
    case 0x02: return 0;
    default: return PELLA_STATUS_WITH_ERROR;
    }
}

/* Enters an event that was accepted. */
static inline void enter_end(struct request *request, uint32_t event, uint32_t scsi_status, uint32_t moved) {
    request->stage = FINISHED;
    request->moved = moved;
    request->scsi_status = event == PELLA_EVENT_COMPLETE ? scsi_status : 0;
    request->base = base_of(request, event, scsi_status, moved);
}

/* Enters an abort that was accepted: a waiting request ends at once. */
static inline void enter_abort(struct request *request) {
    if (request->stage != WAITING)
        return;
    request->stage = FINISHED;
    request->base = PELLA_STATUS_ABORTED;
}

static inline void enter_reset(void) {
    for (int i = 0; i < PELLA_MOST_LIVE; i++)
        if (books[i].stage == ACTIVE) {
            books[i].stage = FINISHED;
            books[i].base = PELLA_STATUS_BUS_RESET;
        }
}

/* ---- calls */

enum kind { FRESH, TAKE_IN, SEND, REPORT, ABORT, FREEZE, RELEASE, TICK, RESET, LOOK, HAND_BACK, KINDS };

/* A call, with its numbers. Which of them it has depends on the kind. */
struct call {
    enum kind kind;
    uint32_t ticket, unit;
    uint32_t event, scsi_status, sense, moved;
    size_t length;
    uint8_t block[BLOCK_MOST];
};

/* How likely each call is, from FRESH to HAND_BACK, for a while. */
static const uint8_t moods[][KINDS] = {
    { 0, 20, 20, 20, 4, 2, 8, 8, 1, 4, 13 }, /* as much comes as goes */
    { 0, 50, 14, 4, 2, 1, 4, 2, 0, 2, 1 },   /* the desk gets full */
    { 0, 2, 20, 25, 5, 1, 9, 4, 1, 3, 30 },  /* and empty */
    { 0, 10, 25, 3, 2, 1, 9, 25, 1, 3, 3 },  /* time passes */
};

static inline enum kind some_kind(void) {
    static uint32_t mood = 0;
    uint32_t left, sum = 0;
    if (one_in(100))
        mood = below(sizeof moods / sizeof moods[0]);
    for (int kind = 0; kind < KINDS; kind++)
        sum += moods[mood][kind];
    left = below(sum);
    int kind = 0;
    while (left >= moods[mood][kind])
        left -= moods[mood][kind++];
    return (enum kind)kind;
}

/* A ticket, of a request in this stage if there is one and chance will. */
static inline uint32_t some_ticket(enum stage stage) {
    struct request *request = some_request(one_in(8) ? (enum stage)below(4) : stage);
    return request == NULL || one_in(20) ? any_number() : request->ticket;
}

/* A unit: where something waits, or any that there is, or perhaps isn't. */
static inline uint32_t some_unit(void) {
    struct request *request = some_request(WAITING);
    if (request != NULL && !one_in(4))
        return unit_of(request->block);
    return one_in(4) ? any_number() : below(PELLA_UNITS);
}

/* An event on a ticket: numbers around those that its block has. */
static inline void some_event(struct call *call) {
    static const uint8_t events[] = { PELLA_EVENT_ABORT_DONE, PELLA_EVENT_SELECTION_TIMEOUT, PELLA_EVENT_PARITY,
                                      PELLA_EVENT_BUS_FREE,   PELLA_EVENT_PHASE,             PELLA_EVENT_ADAPTER_ERROR };
    static const uint8_t statuses[] = { 0x00, 0x00, 0x00, 0x02, 0x02, 0x02, 0x04, 0x08, 0x18 };
    const struct request *request = request_of(call->ticket);
    uint32_t asked = request == NULL ? 512 : data_length_of(request->block);
    uint32_t sense_asked = request == NULL ? 32 : request->block[PELLA_AT_SENSE_LENGTH];
    call->event = one_in(2) ? PELLA_EVENT_COMPLETE : PICK(events);
    call->scsi_status = one_in(8) ? below(256) : PICK(statuses);
    call->sense = one_in(3) ? below(258) : (sense_asked + 259 - below(3)) % 258;
    if (one_in(4))
        call->sense = one_in(2) ? PELLA_SENSE_NONE : PELLA_SENSE_FAILED;
    call->moved = one_in(8) ? any_number() : one_in(2) ? asked : asked + below(129) - 64;
}

/* A call of this kind; a block that is taken in has at most so many bytes. The block of a hand-back is the caller's matter. */
static inline void some_call(struct call *call, enum kind kind, size_t most) {
    memset(call, 0, sizeof *call);
    call->kind = kind;
    switch (kind) {
    case TAKE_IN: call->length = some_block(call->block, most); break;
    case REPORT:
        call->ticket = some_ticket(ACTIVE);
        some_event(call);
        break;
    case ABORT: call->ticket = some_ticket(one_in(2) ? ACTIVE : WAITING); break;
    case FREEZE:
    case RELEASE: call->unit = some_unit(); break;
    default: break;
    }
}

#endif
