/*
 * pellacrosta.h: the request desk for C99 and C++.
 *
 * The desk takes SCSI requests in, says which is sent next, turns what the adapter reports into a status byte and an exact count of
 * missing bytes, and hands each request back, once. On a desk that is kept as THE MEMORY says, every function below is proved to do what
 * it says here, for every value of its numbers. On any other memory it is proved to end, to stay within what it was lent, and to alter
 * nothing where it refuses. "The standard" is ISO/IEC 9316-2:2000, the Common Access Method.
 *
 * Link with -lpellacrosta, on x86-64. The archive needs no other library, not even C's.
 *
 * THE MEMORY. A desk is PELLA_WORDS words of 32 bits, a wheel (clock and rotation mark) and the last ticket given. The caller has them,
 * aligned as their types are, and lends them with each call. Make them with pella_fresh, PELLA_FRESH_WHEEL and 0, leave them alone
 * between calls, and lend the same three each time. Nothing is kept anywhere else, so there may be as many desks as there is memory for.
 *
 *     uint32_t memory[PELLA_WORDS];
 *     struct pella_wheel wheel = PELLA_FRESH_WHEEL;
 *     uint32_t last_ticket = 0;
 *     pella_fresh(memory, PELLA_WORDS);
 *
 * WHAT A CALLER OWES. A pointer leads to what its type says, and to as many of them as the count beside it; memory, wheel, block and
 * last_ticket don't overlap; and calls on one desk are not made at the same time. For safety that is all: no number needs to be checked
 * before a call. (A block of 0 bytes may be a null pointer.)
 *
 * WHAT A CALL NEVER DOES. It doesn't wait, allocate, take a lock, call out or keep a pointer, and it ends after a bounded number of
 * steps. It touches no byte outside of what it was lent. On memory that no calls made (noise, say) its answers mean nothing.
 *
 * INTERRUPTS. So each call may be made from an interrupt, if no call on the same desk was interrupted by it. Like other compiled code
 * for x86-64, the archive's uses xmm registers and the 128 bytes below the stack pointer (the red zone). A hosted system keeps both for
 * each program. In a kernel, make calls only where xmm registers may be used, and let interrupts have a stack of their own.
 *
 * REFUSALS. Each call has one number for its refusal, and 0 where there is none: the function's result, or the first member of its
 * record, `refused`. (pella_freeze and pella_release return 0 or 1 where there is none: PELLA_IS_REFUSED is right for every call.) With
 * a refusal the other members are 0, and nothing is altered: no word of the memory, no byte of the block, not the wheel, not the last
 * ticket. The one exception is a block that pella_take_in refuses: its byte 7 becomes the number (unless fewer than 8 bytes were lent,
 * or the number is 201).
 */
#ifndef PELLACROSTA_H
#define PELLACROSTA_H

#include <stdbool.h>
#include <stddef.h>
#include <stdint.h>

#ifdef __cplusplus
extern "C" {
#endif

/* How many words of 32 bits a desk needs. More may be lent; the rest isn't touched. */
#define PELLA_WORDS 838

/* How many requests may be live (taken in and not handed back), how many of them active, and how many units there are. */
#define PELLA_MOST_LIVE 32
#define PELLA_MOST_ACTIVE 8
#define PELLA_UNITS 64

/* The number of the unit at a target (0 to 7; 7 is the host itself and no device) and a LUN (0 to 7); neither is checked. */
#define PELLA_UNIT(target, lun) ((uint32_t)(target) * 8 + (uint32_t)(lun))

/* The clock, in seconds, and the rotation mark: the unit that was sent to last. */
struct pella_wheel {
    uint32_t clock;
    uint8_t mark;
};

/* A fresh wheel, to initialise one: clock 0, mark 63. */
#define PELLA_FRESH_WHEEL { 0, 63 }

/*
 * ---- the block: Table 20 of the standard, little-endian. Where each field begins, and its bytes if more than one. Other fields aren't
 * read, reserved ones aren't checked.
 */

#define PELLA_BLOCK_BYTES 88 /* the least that a block has; private data begins there */

#define PELLA_AT_ADDRESS 0             /* 4: tells live requests apart */
#define PELLA_AT_LENGTH 4              /* 2: of the block, from PELLA_BLOCK_BYTES to the bytes lent */
#define PELLA_AT_FUNCTION 6            /* 01h, execute SCSI I/O */
#define PELLA_AT_STATUS 7              /* written: 00h or the refusal when it is taken in, the status byte when it is handed back */
#define PELLA_AT_PATH 9                /* 0 */
#define PELLA_AT_TARGET 10             /* 0 to 6 */
#define PELLA_AT_LUN 11                /* 0 to 7 */
#define PELLA_AT_FLAGS 12              /* 4: the flags below */
#define PELLA_AT_CALLBACK 28           /* 4: given by pella_look */
#define PELLA_AT_DATA_LENGTH 36        /* 4: up to FFFFFFh */
#define PELLA_AT_SENSE_LENGTH 44       /* how many bytes of sense are asked for */
#define PELLA_AT_CDB_LENGTH 45         /* 1 to 12 */
#define PELLA_AT_SCSI_STATUS 52        /* written when it is handed back */
#define PELLA_AT_AUTOSENSE_RESIDUAL 53 /* written when it is handed back */
#define PELLA_AT_RESIDUAL 56           /* 4, two's complement: written when it is handed back */
#define PELLA_AT_CDB 60                /* 12 */
#define PELLA_AT_TIMEOUT 72            /* 4: seconds; 0 means 30, FFFFFFFFh never */

/* Flags, as a number of 4 bytes at PELLA_AT_FLAGS. */
#define PELLA_FLAG_AUTOSENSE_DISABLED 0x0020u
#define PELLA_FLAG_CALLBACK_DISABLED 0x0008u
#define PELLA_FLAG_TO_THE_HEAD 0x1000u /* SIM Queue Priority */
/* Refused with 16h: scatter/gather, linked CDB, tag queue action enable, CDB is a pointer. */
#define PELLA_FLAGS_REFUSED 0x0017u

/* ---- the numbers of refusals */

#define PELLA_IS_REFUSED(number) ((number) > 1)

/* Taking in, also written to the block's byte 7 (the names are the standard's, shortened). */
#define PELLA_REFUSED_CAM_BUSY 0x05          /* PELLA_MOST_LIVE requests are live, or the last ticket, FFFFFFFFh, was given */
#define PELLA_REFUSED_INVALID_REQUEST 0x06   /* function code, target, LUN or CDB length; or a live request has the same address */
#define PELLA_REFUSED_INVALID_PATH 0x07      /* path is not 0 */
#define PELLA_REFUSED_LENGTH_INADEQUATE 0x15 /* fewer than 8 bytes lent; length field below 88 or above the bytes lent */
#define PELLA_REFUSED_CANNOT_PROVIDE 0x16    /* a flag of PELLA_FLAGS_REFUSED; data length above FFFFFFh */
/* The other calls. */
#define PELLA_REFUSED_UNABLE_TO_ABORT 0x03 /* abort: the request is finished or unknown */
#define PELLA_REFUSED_NOT_ACTIVE 101       /* report: no active request has this ticket */
/* 102, report: moved above 7FFFFFFFh; sense is looked at, and more came than asked for; abort done, and pella_abort wasn't called for
 * the request and it isn't overdue. The request is still active then. */
#define PELLA_REFUSED_IMPLAUSIBLE 102
#define PELLA_REFUSED_NO_SUCH_UNIT 103  /* freeze, release: unit above 63 */
#define PELLA_REFUSED_NONE_FINISHED 104 /* hand back: the finished line is empty */
#define PELLA_REFUSED_NOT_ITS_BLOCK 105 /* hand back: fewer than 88 bytes lent, or bytes 0 to 3 are not the first request's address */
/* The library's own. */
#define PELLA_REFUSED_TOO_FEW_WORDS 201  /* any call: fewer than PELLA_WORDS words lent. It comes before every other */
#define PELLA_REFUSED_NO_SUCH_EVENT 202  /* report: the kind is none of those below. 202 to 204 come in this order, before 101 and 102 */
#define PELLA_REFUSED_NO_SUCH_STATUS 203 /* report: a complete event with a SCSI status above 255 */
#define PELLA_REFUSED_NO_SUCH_SENSE 204  /* report: a complete event with a sense above PELLA_SENSE_NONE */

/* ---- what the adapter reports: the kinds of event */

#define PELLA_EVENT_COMPLETE 0x01 /* the only kind that has a SCSI status and a sense */
#define PELLA_EVENT_ABORT_DONE 0x02
#define PELLA_EVENT_SELECTION_TIMEOUT 0x0A
#define PELLA_EVENT_PARITY 0x0F
#define PELLA_EVENT_BUS_FREE 0x13
#define PELLA_EVENT_PHASE 0x14
#define PELLA_EVENT_ADAPTER_ERROR 0x19

/*
 * The sense of a complete event: how many bytes came, 0 to 255, or one of these, which both count as no byte. It is looked at only for
 * SCSI status 02h (check condition), if the block doesn't disable autosense and asks for at least one byte of it.
 */
#define PELLA_SENSE_FAILED 256
#define PELLA_SENSE_NONE 257

/* ---- the status byte that a handed back block is told: a base status, and two bits */

#define PELLA_STATUS_BASE 0x3F
#define PELLA_STATUS_FROZEN 0x40 /* the unit was frozen right after this end, by it or by another cause. It may be released since */
#define PELLA_STATUS_SENSED 0x80 /* sense was looked at and at least one byte came */

#define PELLA_STATUS_DONE 0x01         /* completed without error. LOOK AT THE RESIDUAL: a short read is 01h too */
#define PELLA_STATUS_ABORTED 0x02      /* aborted, as the host asked */
#define PELLA_STATUS_WITH_ERROR 0x04   /* completed with a SCSI status that is neither 00h nor 04h */
#define PELLA_STATUS_TIMED_OUT 0x0B    /* it was overdue, whatever was reported */
#define PELLA_STATUS_BUS_RESET 0x0E    /* ended by a bus reset */
#define PELLA_STATUS_SENSE_UNREAD 0x10 /* check condition, sense was looked at, and none came */
#define PELLA_STATUS_OVERRUN 0x12      /* completed, and more bytes moved than asked: the residual is below zero */
/* and 0Ah, 0Fh, 13h, 14h, 19h: the event of that number was reported */

/* ---- what the calls give. Members that don't apply are 0 or false. */

struct pella_taken {
    uint32_t refused;
    uint32_t ticket; /* from 1 upwards, each given once */
};

struct pella_sent {
    uint32_t refused;
    uint32_t ticket;
    bool sent;       /* a request became active: put it on the bus. Else there is nothing to send now */
    uint8_t unit;    /* target x 8 + LUN */
    uint8_t looked;  /* how many units were looked at: 1 to 64; 0 where PELLA_MOST_ACTIVE requests are active already */
    uint8_t cdb[12]; /* all 12, whatever the CDB's length, as they were when the request was taken in */
};

struct pella_first {
    uint32_t refused;
    uint32_t ticket;
    uint32_t address;  /* the block's, as it was when the request was taken in */
    uint32_t callback; /* the block's, likewise */
    bool found;        /* the finished line has a first request. Else it is empty */
    bool wanted;       /* the block didn't disable its callback */
};

struct pella_handed {
    uint32_t refused;
    uint32_t ticket;
    int32_t residual; /* data length minus bytes moved: above zero, so many bytes are missing; below zero, so many came too many */
    uint8_t status;
    uint8_t scsi_status;        /* the event's for PELLA_EVENT_COMPLETE, else 0 */
    uint8_t autosense_residual; /* sense length minus sense bytes, if sense was looked at, else 0 */
};

/* ---- the calls. `words` is how many words lie at `memory`: PELLA_WORDS or more. Each may be refused with 201. */

/*
 * Makes an empty desk of any words: no request, no unit frozen. (Take PELLA_FRESH_WHEEL and last ticket 0 with it.)
 * Returns 0, or 201.
 */
uint32_t pella_fresh(uint32_t *memory, size_t words);

/*
 * Takes a request in: `length` bytes at `block`. If it is accepted byte 7 becomes 00h, the request has the next ticket, which
 * *last_ticket becomes too, and waits on its unit: last, or first with PELLA_FLAG_TO_THE_HEAD. The desk keeps what it needs of the
 * block and no pointer; lend the same block again to pella_hand_back.
 * Refused, the first that applies (also in byte 7, if 8 bytes were lent): 201, in no byte. 15h, fewer than 8 bytes. 06h, function. 15h,
 * length field. 07h, path. 06h, target or LUN. 16h, a flag of PELLA_FLAGS_REFUSED. 06h, CDB length. 16h, data length. 06h, a live
 * request has the same address. 05h, FFFFFFFFh was given. 05h, PELLA_MOST_LIVE requests are live.
 */
struct pella_taken pella_take_in(uint32_t *memory, size_t words, uint8_t *block, size_t length, uint32_t *last_ticket);

/*
 * Sends. With PELLA_MOST_ACTIVE requests active nothing is sent. Otherwise units are looked at from the one after the mark round to
 * the mark itself: the first on which something waits, that isn't frozen and has nothing active, is sent its first waiting request.
 * The request becomes active, its time starts at wheel->clock, and wheel->mark becomes the unit. If nothing can be sent, nothing is
 * altered. wheel->clock is never altered here.
 * Refused: 201.
 */
struct pella_sent pella_send(uint32_t *memory, size_t words, struct pella_wheel *wheel);

/*
 * The adapter reports an event on an active request, with the bytes moved. The request ends and joins the finished line; if its base
 * status is other than 01h its unit is frozen. scsi_status (0 to 255) and sense are looked at for PELLA_EVENT_COMPLETE alone.
 * Returns 0, or 101, 102, 201 to 204.
 */
uint32_t pella_report(uint32_t *memory, size_t words, uint32_t ticket, uint32_t kind, uint32_t scsi_status, uint32_t sense,
                      uint32_t moved);

/*
 * Aborts a request. One that waits ends at once, with 02h and the whole data length missing. One that is active is marked, and ends
 * when the adapter reports; report PELLA_EVENT_ABORT_DONE for it when its abort is done. (A second abort of it gives 0 again.)
 * Returns 0, or 03h (it is finished or unknown), 201.
 */
uint32_t pella_abort(uint32_t *memory, size_t words, uint32_t ticket);

/*
 * Freezes a unit: nothing is sent to it. Releases it, whatever froze it.
 * Return 1 if it was frozen before, 0 if not, or 103, 201.
 */
uint32_t pella_freeze(uint32_t *memory, size_t words, uint32_t unit);
uint32_t pella_release(uint32_t *memory, size_t words, uint32_t unit);

/*
 * A second has passed: wheel->clock goes on by one, from FFFFFFFFh to 0, and each active request that was sent more seconds ago than
 * its timeout is overdue from then on. That ends nothing by itself: what is reported next ends it with 0Bh (abort done, if pella_abort
 * was called for it, with 02h). The desk doesn't say which are overdue; a driver that wants to abort them keeps its own times.
 * wheel->mark is never altered here.
 * Returns 0, or 201.
 */
uint32_t pella_tick(uint32_t *memory, size_t words, struct pella_wheel *wheel);

/*
 * The bus was reset: every active request ends with 0Eh and the whole data length missing, the smallest ticket first, and its unit is
 * frozen. Waiting ones stay.
 * Returns 0, or 201.
 */
uint32_t pella_reset(uint32_t *memory, size_t words);

/*
 * Looks at the first request of the finished line, and alters nothing.
 * Refused: 201.
 */
struct pella_first pella_look(const uint32_t *memory, size_t words);

/*
 * Hands the first finished request back, with its block lent again: bytes 7 (status), 52 (SCSI status), 53 (autosense residual) and 56
 * to 59 (residual, two's complement) are written and no others, and the request's place is free.
 * Refused: 104, then 105; 201.
 */
struct pella_handed pella_hand_back(uint32_t *memory, size_t words, uint8_t *block, size_t length);

#ifdef __cplusplus
}
#endif

#endif
