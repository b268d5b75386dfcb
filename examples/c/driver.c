/*
 * driver.c: a small driver on the request desk, as a model for driver writers. C99, and C++ as well.
 *
 * Four reads are taken in, sent, ended and handed back: a short one, an overrun, one that ends in a check condition with sense, and a
 * whole one. The adapter is a pretend one: what it says of each read is a constant below. README.md, "Link it", has the commands that
 * compile this file, and what it prints.
 */
#include <pellacrosta.h>
#include <stdio.h>
#include <stdlib.h>
#include <string.h>

#define SENSE_BYTES 32
#define CHECK_CONDITION 0x02

/* A desk: what is lent with its calls, and left alone in between. */
struct desk {
    uint32_t memory[PELLA_WORDS];
    struct pella_wheel wheel;
    uint32_t last_ticket;
};

/* A read, as the driver keeps it until it is handed back. */
struct job {
    uint8_t target;
    uint8_t lun;
    uint32_t asked; /* bytes */
    /* What the pretend adapter will say of it. A real driver learns that from its hardware. */
    uint32_t moved;
    uint32_t scsi_status;
    uint32_t sense;
    /* Told by the desk. */
    uint32_t ticket;
    bool active;
    uint8_t block[PELLA_BLOCK_BYTES];
};

static struct job jobs[] = {
    { 1, 0, 512, 500, 0, PELLA_SENSE_NONE, 0, false, { 0 } },
    { 2, 0, 4096, 4100, 0, PELLA_SENSE_NONE, 0, false, { 0 } },
    { 3, 0, 512, 0, CHECK_CONDITION, 18, 0, false, { 0 } },
    { 2, 0, 4096, 4096, 0, PELLA_SENSE_NONE, 0, false, { 0 } },
};
static const uint32_t job_count = sizeof jobs / sizeof jobs[0];

static const char *reason(uint32_t refused) {
    switch (refused) {
    case PELLA_REFUSED_CAM_BUSY: return "all places are taken";
    case PELLA_REFUSED_INVALID_REQUEST: return "the block has a wrong field, or the address of a live request";
    case PELLA_REFUSED_INVALID_PATH: return "the block's path is not 0";
    case PELLA_REFUSED_LENGTH_INADEQUATE: return "the block is too short, or its length field is wrong";
    case PELLA_REFUSED_CANNOT_PROVIDE: return "the block asks for something that the desk doesn't do";
    case PELLA_REFUSED_NOT_ACTIVE: return "the request is not active";
    case PELLA_REFUSED_IMPLAUSIBLE: return "no adapter can have seen that";
    case PELLA_REFUSED_NO_SUCH_UNIT: return "there is no such unit";
    case PELLA_REFUSED_NOT_ITS_BLOCK: return "the block is too short, or another request's";
    case PELLA_REFUSED_TOO_FEW_WORDS: return "the desk's memory is too small";
    case PELLA_REFUSED_NO_SUCH_STATUS: case PELLA_REFUSED_NO_SUCH_SENSE: return "there is no such SCSI status or sense";
    default: return "for a reason that this driver never meets";
    }
}

/*
 * Ends the program if a call was refused. A real driver goes on: it waits for a hand-back where the desk is full (05h), and notes a report
 * that came too late (101) or can't be (102).
 */
static void stop_if(uint32_t refused, const char *doing) {
    if (refused != 0) {
        fprintf(stderr, "driver: %s was refused: %s\n", doing, reason(refused));
        exit(1);
    }
}

/* Stores a number little-endian, as the block has it, whatever the machine. */
static void put(uint8_t *at, uint32_t number, int bytes) {
    for (int i = 0; i < bytes; i++)
        at[i] = (uint8_t)(number >> 8 * i);
}

/* Fills a job's block. The address only tells live requests apart: here it is the job's place in the table. */
static void fill_block(struct job *job, uint32_t address) {
    uint8_t *block = job->block;
    memset(block, 0, PELLA_BLOCK_BYTES);
    put(block + PELLA_AT_ADDRESS, address, 4);
    put(block + PELLA_AT_LENGTH, PELLA_BLOCK_BYTES, 2);
    block[PELLA_AT_FUNCTION] = 0x01; /* execute SCSI I/O */
    block[PELLA_AT_TARGET] = job->target;
    block[PELLA_AT_LUN] = job->lun;
    put(block + PELLA_AT_FLAGS, 0x40, 4); /* data comes in. The desk doesn't read it, the adapter's side does */
    put(block + PELLA_AT_DATA_LENGTH, job->asked, 4);
    block[PELLA_AT_SENSE_LENGTH] = SENSE_BYTES;
    block[PELLA_AT_CDB_LENGTH] = 6;
    block[PELLA_AT_CDB] = 0x08;                             /* READ(6), */
    block[PELLA_AT_CDB + 4] = (uint8_t)(job->asked / 512); /* so many sectors */
    put(block + PELLA_AT_TIMEOUT, 30, 4);
}

static struct job *job_of(uint32_t ticket) {
    for (uint32_t i = 0; i < job_count; i++)
        if (jobs[i].ticket == ticket)
            return &jobs[i];
    fprintf(stderr, "driver: no job has ticket %u\n", ticket);
    exit(1);
}

static void take_in(struct desk *desk, uint32_t address) {
    struct job *job = &jobs[address];
    fill_block(job, address);
    struct pella_taken taken = pella_take_in(desk->memory, PELLA_WORDS, job->block, PELLA_BLOCK_BYTES, &desk->last_ticket);
    stop_if(taken.refused, "taking a read in");
    job->ticket = taken.ticket;
    printf("ticket %u: a read of %u bytes from unit %u waits\n", job->ticket, job->asked, PELLA_UNIT(job->target, job->lun));
}

/* Sends whatever may go now: one request for each unit that isn't frozen, PELLA_MOST_ACTIVE in all. */
static void send_all(struct desk *desk) {
    for (;;) {
        struct pella_sent sent = pella_send(desk->memory, PELLA_WORDS, &desk->wheel);
        stop_if(sent.refused, "sending");
        if (!sent.sent)
            return;
        job_of(sent.ticket)->active = true; /* a real driver hands sent.unit and sent.cdb to the adapter */
        printf("ticket %u is sent to unit %u\n", sent.ticket, sent.unit);
    }
}

/* The pretend adapter: whatever is active ends, as its constants say. */
static void report_all(struct desk *desk) {
    for (uint32_t i = 0; i < job_count; i++) {
        struct job *job = &jobs[i];
        if (!job->active)
            continue;
        stop_if(pella_report(desk->memory, PELLA_WORDS, job->ticket, PELLA_EVENT_COMPLETE, job->scsi_status, job->sense, job->moved),
                "a report");
        job->active = false;
    }
}

/* How it ended. The other statuses of pellacrosta.h don't come from this adapter; a real driver names them all. */
static const char *ending(const struct pella_handed *handed) {
    switch (handed->status & PELLA_STATUS_BASE) {
    case PELLA_STATUS_DONE: return handed->residual == 0 ? "completed:" : "completed, but";
    case PELLA_STATUS_OVERRUN: return "overrun:";
    case PELLA_STATUS_WITH_ERROR: return handed->scsi_status == CHECK_CONDITION ? "check condition:" : "completed with an error:";
    default: return "failed:";
    }
}

/* The outcome in words. What is missing is in the residual alone: a status of "completed" doesn't say that all came. */
static void tell(const struct job *job, const struct pella_handed *handed) {
    uint32_t unit = PELLA_UNIT(job->target, job->lun);
    printf("ticket %u, unit %u: %s", handed->ticket, unit, ending(handed));
    if (handed->status & PELLA_STATUS_SENSED)
        printf(" %d of %d sense bytes came,", SENSE_BYTES - handed->autosense_residual, SENSE_BYTES);
    if (handed->residual > 0)
        printf(" %d of %u bytes are missing", handed->residual, job->asked);
    else if (handed->residual < 0)
        printf(" %d bytes more than the %u asked for came", -handed->residual, job->asked);
    else
        printf(" all %u bytes came", job->asked);
    if (handed->status & PELLA_STATUS_FROZEN)
        printf("; unit %u is frozen", unit);
    printf("\n");
}

/*
 * A bad end froze the unit, so that nothing is sent to it before somebody has put things right there. Here nothing needs to be done. (A
 * good end with +40h isn't the cause of its unit's freeze: whoever froze it releases it.)
 */
static void release(struct desk *desk, uint32_t unit) {
    uint32_t was_frozen = pella_release(desk->memory, PELLA_WORDS, unit); /* 0 or 1, or a refusal */
    if (PELLA_IS_REFUSED(was_frozen))
        stop_if(was_frozen, "a release");
    printf("unit %u is released\n", unit);
}

/* Hands back all that is finished. The look says whose block the desk is to be lent. */
static void hand_back_all(struct desk *desk) {
    for (;;) {
        struct pella_first first = pella_look(desk->memory, PELLA_WORDS);
        stop_if(first.refused, "a look");
        if (!first.found)
            return;
        struct job *job = job_of(first.ticket);
        struct pella_handed handed = pella_hand_back(desk->memory, PELLA_WORDS, job->block, PELLA_BLOCK_BYTES);
        stop_if(handed.refused, "a hand-back");
        tell(job, &handed);
        if ((handed.status & PELLA_STATUS_BASE) != PELLA_STATUS_DONE)
            release(desk, PELLA_UNIT(job->target, job->lun));
    }
}

int main(void) {
    static struct desk desk = { { 0 }, PELLA_FRESH_WHEEL, 0 };
    stop_if(pella_fresh(desk.memory, PELLA_WORDS), "making the desk");
    for (uint32_t i = 0; i < job_count; i++)
        take_in(&desk, i);
    for (int round = 0; round < 2; round++) { /* in the second goes what waited behind another on its unit */
        send_all(&desk);
        report_all(&desk);
        hand_back_all(&desk);
    }
    return 0;
}
