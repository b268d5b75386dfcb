/*
 * session.c: one fresh desk, calls by chance through pellacrosta.h, and two files: the calls as a log of the replay program
 * (docs/REPLAY.md), and the answers as the replay prints them, made of what the functions returned. A replay of the log that differs
 * from the answers shows that header, archive and replay disagree. What no record shows is checked here: the look, the CDB of a send,
 * the header's flags, and every byte of a block.
 */
#include "calls.h"

#define LONGEST 199 /* the longest block that a line of the log holds */

static const char usage[] = "usage: session [--seed N] [--calls N] LOG ANSWERS\n";

static uint32_t memory[PELLA_WORDS];
static struct pella_wheel wheel = PELLA_FRESH_WHEEL;
static uint32_t last_ticket = 0;

static uint64_t seed = 1, calls = 20000, call_number;
static FILE *log_file, *answers;

static void must(bool holds, const char *what) {
    if (!holds) {
        printf("session: seed %llu, call %llu: %s\n", (unsigned long long)seed, (unsigned long long)call_number, what);
        exit(1);
    }
}

/* An answer that is one number: 0, 1 (a unit that was frozen) or a refusal, which below 100 is two hex digits. */
static void answer_number(char letter, uint32_t number) {
    fprintf(answers, number <= 1 || number > 99 ? "%c\t%u\n" : "%c\t%02X\n", letter, number);
}

static void take_in(struct call *call) {
    uint8_t before[BLOCK_MOST];
    memcpy(before, call->block, call->length);
    fprintf(log_file, "S\t");
    for (size_t i = 0; i < call->length; i++)
        fprintf(log_file, "%02X", call->block[i]);
    fprintf(log_file, "\n");

    struct pella_taken taken = pella_take_in(memory, PELLA_WORDS, call->block, call->length, &last_ticket);
    fprintf(answers, "S\t%02X\t%u\n", taken.refused, taken.ticket);

    if (call->length >= 8)
        before[7] = (uint8_t)taken.refused;
    must(memcmp(before, call->block, call->length) == 0, "take_in: another byte than byte 7 was written, or another number");
    if (taken.refused == 0)
        must(enter(taken.ticket, call->block, call->length), "take_in: more than PELLA_MOST_LIVE are live");
}

static bool is_flagged(const struct request *request, uint32_t flag) {
    return (get(request->block + PELLA_AT_FLAGS, 4) & flag) != 0;
}

/* Of two requests that wait on one unit, the one that goes first: to the head, the later one; else the earlier one. */
static bool goes_before(const struct request *one, const struct request *other) {
    if (is_flagged(one, PELLA_FLAG_TO_THE_HEAD) != is_flagged(other, PELLA_FLAG_TO_THE_HEAD))
        return is_flagged(one, PELLA_FLAG_TO_THE_HEAD);
    return is_flagged(one, PELLA_FLAG_TO_THE_HEAD) ? one->ticket > other->ticket : one->ticket < other->ticket;
}

static bool is_first_of_its_unit(const struct request *request) {
    for (int i = 0; i < PELLA_MOST_LIVE; i++)
        if (books[i].stage == WAITING && unit_of(books[i].block) == unit_of(request->block) && goes_before(&books[i], request))
            return false;
    return true;
}

static void send(void) {
    fprintf(log_file, "N\n");
    struct pella_sent sent = pella_send(memory, PELLA_WORDS, &wheel);
    if (!sent.sent) {
        fprintf(answers, "N\t-\t%u\n", sent.looked);
        return;
    }
    fprintf(answers, "N\t%u\t%u\t%u\n", sent.ticket, sent.unit, sent.looked);
    struct request *request = request_of(sent.ticket);
    must(request != NULL && request->stage == WAITING, "send: the ticket doesn't wait");
    must(memcmp(sent.cdb, request->block + PELLA_AT_CDB, sizeof sent.cdb) == 0, "send: the CDB is not the block's");
    must(sent.unit == unit_of(request->block) && sent.unit == wheel.mark, "send: the unit is not the block's, or not the mark");
    must(is_first_of_its_unit(request), "send: another request of the unit goes before it");
    enter_sent(request, wheel.clock);
}

static void report(const struct call *call) {
    switch (call->event) {
    case PELLA_EVENT_COMPLETE: fprintf(log_file, "E\t%u\tC\t%u\t%02X\t", call->ticket, call->moved, call->scsi_status); break;
    case PELLA_EVENT_ABORT_DONE: fprintf(log_file, "E\t%u\tK\t%u\n", call->ticket, call->moved); break;
    default: fprintf(log_file, "E\t%u\t%02X\t%u\n", call->ticket, call->event, call->moved); break;
    }
    if (call->event == PELLA_EVENT_COMPLETE && call->sense < PELLA_SENSE_FAILED)
        fprintf(log_file, "%u\n", call->sense);
    else if (call->event == PELLA_EVENT_COMPLETE)
        fprintf(log_file, call->sense == PELLA_SENSE_FAILED ? "X\n" : "-\n");

    uint32_t refused = pella_report(memory, PELLA_WORDS, call->ticket, call->event, call->scsi_status, call->sense, call->moved);
    answer_number('E', refused);
    if (refused == 0) {
        struct request *request = request_of(call->ticket);
        must(request != NULL && request->stage == ACTIVE, "report: the ticket isn't active");
        enter_end(request, call->event, call->scsi_status, call->moved);
    }
}

static void abort_one(const struct call *call) {
    fprintf(log_file, "A\t%u\n", call->ticket);
    uint32_t refused = pella_abort(memory, PELLA_WORDS, call->ticket);
    answer_number('A', refused);
    struct request *request = request_of(call->ticket);
    if (refused == 0 && request != NULL)
        enter_abort(request);
}

/* What a block is told, against those of its fields that no record of the log has by name. */
static void compare_fields(const struct request *request, const struct pella_handed *handed) {
    uint32_t base = handed->status & PELLA_STATUS_BASE, asked = request->block[PELLA_AT_SENSE_LENGTH];
    uint32_t timeout = get(request->block + PELLA_AT_TIMEOUT, 4);
    if (base != PELLA_STATUS_TIMED_OUT)
        must(request->base == 0 ? base == PELLA_STATUS_WITH_ERROR || base == PELLA_STATUS_SENSE_UNREAD : base == request->base,
             "hand_back: the base status is not that of what was reported");
    if (is_flagged(request, PELLA_FLAG_AUTOSENSE_DISABLED))
        must(!(handed->status & PELLA_STATUS_SENSED) && handed->autosense_residual == 0 && base != PELLA_STATUS_SENSE_UNREAD,
             "hand_back: sense was looked at, though the block disables it");
    if (base == PELLA_STATUS_SENSE_UNREAD)
        must(handed->autosense_residual == asked, "hand_back: no sense came, and its residual is not the block's sense length");
    if (base == PELLA_STATUS_TIMED_OUT)
        must(wheel.clock - request->start > (timeout == 0 ? 30 : timeout), "hand_back: timed out before the block's timeout");
}

/* The look has no record: it must announce what the hand-back gives. */
static void hand_back(void) {
    uint8_t spare[PELLA_BLOCK_BYTES] = { 0 };
    fprintf(log_file, "H\n");
    struct pella_first first = pella_look(memory, PELLA_WORDS);
    if (!first.found) {
        struct pella_handed none = pella_hand_back(memory, PELLA_WORDS, spare, sizeof spare);
        must(none.refused != 0, "hand_back: something comes of a line that the look calls empty");
        answer_number('H', none.refused);
        return;
    }
    struct request *request = request_of(first.ticket);
    must(request != NULL && request->stage == FINISHED, "look: the ticket isn't finished");
    uint8_t *block = request->block;
    must(first.address == address_of(block), "look: the address is not the block's");
    must(first.callback == get(block + PELLA_AT_CALLBACK, 4), "look: the callback is not the block's");
    must(first.wanted != is_flagged(request, PELLA_FLAG_CALLBACK_DISABLED), "look: wanted is not what the block's flag says");

    uint8_t told[BLOCK_MOST];
    memcpy(told, block, request->length);
    struct pella_handed handed = pella_hand_back(memory, PELLA_WORDS, block, request->length);
    must(handed.refused == 0, "hand_back: refused what the look announced");
    must(handed.ticket == first.ticket, "hand_back: another ticket than the look's");
    fprintf(answers, "H\t%u\t%02X\t%02X\t%u\t%d\n", handed.ticket, handed.status, handed.scsi_status, handed.autosense_residual,
            handed.residual);
    compare_fields(request, &handed);
    told[PELLA_AT_STATUS] = handed.status;
    told[PELLA_AT_SCSI_STATUS] = handed.scsi_status;
    told[PELLA_AT_AUTOSENSE_RESIDUAL] = handed.autosense_residual;
    put(told + PELLA_AT_RESIDUAL, (uint32_t)handed.residual, 4);
    must(memcmp(told, block, request->length) == 0, "hand_back: the block's bytes are not what was answered");
    request->stage = NONE;
}

static void make_call(struct call *call) {
    switch (call->kind) {
    case TAKE_IN: take_in(call); break;
    case SEND: send(); break;
    case REPORT: report(call); break;
    case ABORT: abort_one(call); break;
    case FREEZE:
        fprintf(log_file, "F\t%u\n", call->unit);
        answer_number('F', pella_freeze(memory, PELLA_WORDS, call->unit));
        break;
    case RELEASE:
        fprintf(log_file, "R\t%u\n", call->unit);
        answer_number('R', pella_release(memory, PELLA_WORDS, call->unit));
        break;
    case TICK:
        fprintf(log_file, "T\n");
        must(pella_tick(memory, PELLA_WORDS, &wheel) == 0, "tick: refused");
        fprintf(answers, "T\t%u\n", wheel.clock);
        break;
    case RESET:
        fprintf(log_file, "B\n");
        answer_number('B', pella_reset(memory, PELLA_WORDS));
        enter_reset();
        break;
    default: hand_back(); break; /* a look too: it is part of it */
    }
}

static FILE *open_file(const char *name) {
    FILE *file = fopen(name, "w");
    if (file == NULL) {
        perror(name);
        exit(2);
    }
    return file;
}

int main(int argc, char **argv) {
    int i = 1;
    for (; i + 1 < argc && argv[i][0] == '-'; i += 2) {
        if (strcmp(argv[i], "--seed") == 0)
            seed = number_of(argv[i + 1], usage);
        else if (strcmp(argv[i], "--calls") == 0)
            calls = number_of(argv[i + 1], usage);
        else
            break;
    }
    if (argc - i != 2 || argv[i][0] == '-') {
        fputs(usage, stderr);
        return 2;
    }
    log_file = open_file(argv[i]);
    answers = open_file(argv[i + 1]);

    chance_state = seed;
    noise((uint8_t *)memory, sizeof memory); /* a fresh desk comes of any words */
    must(pella_fresh(memory, PELLA_WORDS) == 0, "fresh: refused");
    fprintf(answers, "board\t1\n");
    for (call_number = 1; call_number <= calls; call_number++) {
        static struct call call;
        some_call(&call, some_kind(), LONGEST);
        make_call(&call);
    }
    must(fclose(log_file) == 0 && fclose(answers) == 0, "a file can't be written");
    return 0;
}
