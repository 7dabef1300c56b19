/*
 * Birlimock: the meter's side of a P2 plug, as a static library.
 *
 * A meter is a state buffer of BIRLIMOCK_STATE_SIZE bytes that the caller owns, keeps and lends to each call; its
 * layout is in docs/IMAGE.md. The library allocates nothing, keeps nothing between calls, prints nothing, and calls
 * nothing but memcpy and memset. A buffer is a pointer and a length. Every length is answered, and a wrong one by a
 * number: no call traps, given stack enough (docs/SPEED.md has what was seen).
 *
 * What the caller owes, since nothing in C can test it: each pointer is not null, also where its length is 0, and
 * points to as many bytes as its length says (so does `sent`, to a size_t); what a call writes (state, reply, sent)
 * overlaps nothing else that it is lent, and no other thread touches what is lent until the call returns. No buffer
 * needs an alignment.
 *
 * What a call answers: 0, or the number of a refusal: document 01's where it has one for the fault, else one of the
 * library's own, 101, 102 and 104. An owner's call that is refused writes nothing. A frame call writes the whole state
 * buffer, changed or not, where it answers 0, 7, 12 or 13, and else nothing of it. What is written has zeros wherever the
 * meter holds nothing: in registers, columns and rows above their counts, in the keys, challenges and services of
 * associations that are over, in challenges that were answered, and in what H's transfer does not use. So two buffers that
 * were written are equal exactly where their meters hold the same.
 */
#ifndef BIRLIMOCK_H
#define BIRLIMOCK_H

#include <stddef.h>
#include <stdint.h>

#ifdef __cplusplus
extern "C" {
#endif

/* The version that this header belongs to, three numbers in one: 30001 is 3.0.1. The first grows where a program, a client at the plug
 * or a stored state of the version before does not fit any more, the second where a call, an answer or a number comes beside those that
 * stand, the third where no caller can see a difference. birlimock_version() answers that of the library which was linked. */
#define BIRLIMOCK_VERSION 30001

/* The room for a reply that a frame call asks for: the longest frame. */
#define BIRLIMOCK_REPLY_ROOM 779

/* The lengths of what is lent. */
#define BIRLIMOCK_DEVICE_SIZE 16
#define BIRLIMOCK_TITLE_SIZE 8
#define BIRLIMOCK_KEY_SIZE 16
#define BIRLIMOCK_CHALLENGE_SIZE 8
#define BIRLIMOCK_CLOCK_SIZE 12
#define BIRLIMOCK_NAME_SIZE 6

/* The state buffer, for owners who look into it: numbers stand high byte first (docs/IMAGE.md). What stands here changes with
 * BIRLIMOCK_LAYOUT, and a buffer of another layout is refused by 102. Read it, and leave the writing to the calls: 3 refuses some
 * of what a write can spoil, and a counter or a key that was changed is taken as it stands. A list of registers as it is lent is one
 * record of a register after the other, whose right is 1 where H may read it and else 0, and whose scaler is signed: FF is -1. A list
 * of columns is one name after the other. */
/* made from include/layout.txt by include/make: */

/* The first byte of a state buffer: the version of this layout. */
#define BIRLIMOCK_LAYOUT 2

/* How many bytes a state buffer and the records in it have. birlimock_state_size() answers the first at run time. */
#define BIRLIMOCK_STATE_SIZE 1766
#define BIRLIMOCK_CLIENT_SIZE 13
#define BIRLIMOCK_REGISTER_SIZE 13
#define BIRLIMOCK_ROW_SIZE 86
#define BIRLIMOCK_TRANSFER_SIZE 38

/* How many of each there are room for; a count says how many are there. */
#define BIRLIMOCK_REGISTERS 16
#define BIRLIMOCK_COLUMNS 16
#define BIRLIMOCK_ROWS 15
#define BIRLIMOCK_CELLS 16

/* Where fields stand in a state buffer. */
#define BIRLIMOCK_AT_VERSION 0                               /* 1 byte: the version of this layout */
#define BIRLIMOCK_AT_TITLE 1                                 /* 8 bytes: the meter's title */
#define BIRLIMOCK_AT_V 9                                     /* 13 bytes: V, a client */
#define BIRLIMOCK_AT_H 22                                    /* 13 bytes: H, a client */
#define BIRLIMOCK_AT_H_KEY 35                                /* 16 bytes: H's dedicated key */
#define BIRLIMOCK_AT_H_CHALLENGE 51                          /* 8 bytes: the challenge that H drew */
#define BIRLIMOCK_AT_METER_CHALLENGE 59                      /* 8 bytes: the challenge that H was sent */
#define BIRLIMOCK_AT_H_ACCEPTED 67                           /* 4 bytes: the last counter accepted of H */
#define BIRLIMOCK_AT_H_SENT 71                               /* 4 bytes: the last counter sent to H */
#define BIRLIMOCK_AT_P5 75                                   /* 1 byte: 1 where P5 keeps V from linking */
#define BIRLIMOCK_AT_DEVICE 76                               /* 16 bytes: device name */
#define BIRLIMOCK_AT_CLOCK 92                                /* 12 bytes: clock */
#define BIRLIMOCK_AT_PERIOD 104                              /* 4 bytes: capture period, in seconds */
#define BIRLIMOCK_AT_RECORD_NUMBER 108                       /* 2 bytes: record number */
#define BIRLIMOCK_AT_REGISTER_COUNT 110                      /* 8 bytes: how many registers are given */
#define BIRLIMOCK_AT_REGISTER(i) (118 + 13 * (i))            /* 13 bytes: register i, for i from 0 to 15 */
#define BIRLIMOCK_AT_COLUMN_COUNT 326                        /* 8 bytes: how many columns are set */
#define BIRLIMOCK_AT_COLUMN(i) (334 + 6 * (i))               /* 6 bytes: column i, a name, for i from 0 to 15 */
#define BIRLIMOCK_AT_ROW_COUNT 430                           /* 8 bytes: how many rows there are */
#define BIRLIMOCK_AT_ROW(i) (438 + 86 * (i))                 /* 86 bytes: row i, newest first, for i from 0 to 14 */
#define BIRLIMOCK_AT_TRANSFER 1728                           /* 38 bytes: H's transfer, a read in blocks */

/* Where fields stand in a client. */
#define BIRLIMOCK_IN_CLIENT_TITLE 0                          /* 8 bytes: title */
#define BIRLIMOCK_IN_CLIENT_LINK 8                           /* 1 byte: 1 where its link is up */
#define BIRLIMOCK_IN_CLIENT_PHASE 9                          /* 1 byte: its association: 0 none, 1 pending, 2 associated */
#define BIRLIMOCK_IN_CLIENT_SERVICES 10                      /* 3 bytes: services agreed */

/* Where fields stand in a register. */
#define BIRLIMOCK_IN_REGISTER_NAME 0                         /* 6 bytes: name */
#define BIRLIMOCK_IN_REGISTER_RIGHT 6                        /* 1 byte: 1 where H may read it */
#define BIRLIMOCK_IN_REGISTER_SCALER 7                       /* 1 byte: scaler, signed */
#define BIRLIMOCK_IN_REGISTER_UNIT 8                         /* 1 byte: unit */
#define BIRLIMOCK_IN_REGISTER_VALUE 9                        /* 4 bytes: value */

/* Where fields stand in a row. */
#define BIRLIMOCK_IN_ROW_NUMBER 0                            /* 2 bytes: record number */
#define BIRLIMOCK_IN_ROW_CLOCK 2                             /* 12 bytes: clock */
#define BIRLIMOCK_IN_ROW_CELL_COUNT 14                       /* 8 bytes: how many cells it has */
#define BIRLIMOCK_IN_ROW_CELL(j) (22 + 4 * (j))              /* 4 bytes: cell j, for j from 0 to 15 */

/* Where fields stand in a transfer. */
#define BIRLIMOCK_IN_TRANSFER_STATE 0                        /* 1 byte: 0 none, 1 running, 2 ended meanwhile */
#define BIRLIMOCK_IN_TRANSFER_SELECTOR 1                     /* 1 byte: the rows that were asked for: 0 all of them, 1 by date, 2 by entries */
#define BIRLIMOCK_IN_TRANSFER_FROM_CLOCK 2                   /* 12 bytes: by date: rows later than this clock */
#define BIRLIMOCK_IN_TRANSFER_TO_CLOCK 14                    /* 12 bytes: by date: and not later than this one */
#define BIRLIMOCK_IN_TRANSFER_FROM_ENTRY 26                  /* 4 bytes: by entries: the first */
#define BIRLIMOCK_IN_TRANSFER_TO_ENTRY 30                    /* 4 bytes: by entries: the last, as it was asked for */
#define BIRLIMOCK_IN_TRANSFER_BLOCK 34                       /* 4 bytes: the number of the block sent last */

/* end of what is made */

/* Refusals of document 01 (docs/REFUSALS.md has what is sent, and the meter afterwards). Frame calls answer 1 to 13 and test 1,
 * 2, 3 before the frame; 1 to 7 send nothing. A counter's step is how many counters it lies after the last accepted of its client;
 * 0 comes after 4294967295. Owner's calls test 3 before their own. */
#define BIRLIMOCK_ROOM_TOO_SHORT 1      /* too little room for a reply */
#define BIRLIMOCK_WRONG_SECRETS 2       /* a key or the challenge is not whole */
#define BIRLIMOCK_UNSOUND_STATE 3       /* the meter's state is not sound */
#define BIRLIMOCK_NOT_A_FRAME 4         /* not a whole frame */
#define BIRLIMOCK_FRMR_RECEIVED 5       /* the frame itself is a rejection */
#define BIRLIMOCK_ENVELOPE_NOT_OPENED 6 /* the seal is not right */
#define BIRLIMOCK_COUNTER_OUTSIDE 7     /* the counter's step is not 1 to 180 */
#define BIRLIMOCK_FRAME_TOO_LONG 8      /* the frame is too long */
#define BIRLIMOCK_BAD_FRAME 9           /* the frame is bad */
#define BIRLIMOCK_NO_LINK 10            /* there is no link */
#define BIRLIMOCK_AARQ_REJECTED 11      /* the association is not accepted */
#define BIRLIMOCK_BAD_APDU 12           /* malformed, unknown, or not now */
#define BIRLIMOCK_DENIED 13             /* the read or the action is denied */
#define BIRLIMOCK_BAD_CLOCK 14          /* the clock is not valid */
#define BIRLIMOCK_BAD_PERIOD 15         /* the period is not permitted */
#define BIRLIMOCK_BAD_REGISTERS 16      /* the list of registers is bad */
#define BIRLIMOCK_NO_REGISTER 17        /* there is no such register */
#define BIRLIMOCK_BAD_COLUMNS 18        /* the list of columns is bad */

/* The library's own refusals, of what document 01 does not know. 101 and 102 stand where 01 tests the state, before 3. */
#define BIRLIMOCK_WRONG_STATE_SIZE 101  /* the state buffer has another length */
#define BIRLIMOCK_WRONG_VERSION 102     /* the state buffer has another version */
#define BIRLIMOCK_WRONG_ARGUMENT 104    /* an argument of a new meter, or a flag, is wrong */

/* The version of the library, as BIRLIMOCK_VERSION has it: compare them once, to see that header and library are of one version. */
uint32_t birlimock_version(void);

/* How many bytes a state buffer has: BIRLIMOCK_STATE_SIZE. */
size_t birlimock_state_size(void);

/* A new meter: its device name (16 bytes), its own title and the titles held for V and H (8 bytes each); no registers, no
 * columns, no rows, links down, period 60 s, clock 2017-01-01 00:00:00. What the state buffer held before does not matter.
 * Refusals: 101, 104. Writes: the whole state buffer where it answers 0, else nothing. */
uint8_t birlimock_new(uint8_t *state, size_t state_len,
                      const uint8_t *device, size_t device_len,
                      const uint8_t *title, size_t title_len,
                      const uint8_t *v_title, size_t v_title_len,
                      const uint8_t *h_title, size_t h_title_len);

/* The owner's calls. Refusals of each: 101, 102; then 3, the state is unsound (a flag that is neither 0 nor 1, a phase
 * above 2, a state or selector of a transfer above 2; lists, period or clocks that the calls below would refuse, more than
 * 15 rows, cells that are not one for each column; an association of a kind that the client cannot have, on a link that is
 * down, or with services that were not offered; a transfer that no calls could have left with H's association and the rows
 * as they stand); then its own. Each writes the whole state buffer where it answers 0, and else nothing.
 * Registers given, columns set and a tick that takes a row end a transfer that runs: H is told so at its next numbered
 * request. */

/* Registers are given anew, from whole records; columns and rows are emptied. Own refusal: 16, no whole records, a flag in
 * one that is neither 0 nor 1, more than 16 records, a name twice, or a name of the meter's own objects (0.0.1.0.0.255,
 * 1.0.0.9.1.255, 1.0.0.9.2.255, 0.0.42.0.0.255, 0.0.21.0.6.255, 0.0.96.15.3.255, 0.0.40.0.4.255). */
uint8_t birlimock_give_registers(uint8_t *state, size_t state_len,
                                 const uint8_t *registers, size_t registers_len);

/* The value of the register of this name (6 bytes) is set. Own refusal: 17, no such register, or a name of another
 * length. */
uint8_t birlimock_set_value(uint8_t *state, size_t state_len,
                            const uint8_t *name, size_t name_len, uint32_t value);

/* The columns of the profile are set, from whole names; rows are emptied. H reads every column in the rows, whatever right it has
 * to the register. Own refusal: 18, no whole names, a name that no register bears, a name twice, or more than 16. */
uint8_t birlimock_set_columns(uint8_t *state, size_t state_len,
                              const uint8_t *names, size_t names_len);

/* The capture period is set, in seconds. Own refusal: 15, not a multiple of 30 that divides 3600. */
uint8_t birlimock_set_period(uint8_t *state, size_t state_len, uint32_t period);

/* The meter's clock becomes this one, and a row is taken where minutes times 60 plus seconds is a multiple of the period: by this
 * second alone, so tick once in each second. A due second that no tick names takes no row, and one that two ticks name takes two.
 * The clock's 12 bytes: year (2, high byte first, 2000 to 2099), month, day, FF, hour, minute, second, FF, 80 00 00. Own refusal:
 * 14, other bytes, another number of them, or no real date and time. */
uint8_t birlimock_tick(uint8_t *state, size_t state_len,
                       const uint8_t *clock, size_t clock_len);

/* The P5 flag, which keeps V from linking: 1 sets it, 0 clears it, any other number is refused by 104, after 3. */
uint8_t birlimock_set_p5(uint8_t *state, size_t state_len, uint32_t held);

/* Power-up: links and associations end, and with H's its transfer; counters, rows and record number are cleared. To be
 * called after every start, and with a new GUK: the meter's counters begin at 1 again, so under the same GUK it seals
 * with numbers that were used before (docs/EMBEDDING.md, "Keeping the state"). */
uint8_t birlimock_power_up(uint8_t *state, size_t state_len);

/* The frame call: a frame was received. Lent are GUK and AK (16 bytes each), a challenge of 8 bytes that the caller draws
 * anew for each call, and room for the reply, BIRLIMOCK_REPLY_ROOM bytes or more.
 * Refusals: 1, 2; then 101, 102, 3; then one of 4 to 13. Writes: *sent, how many bytes of the reply room go out, 0 where
 * nothing goes out; these bytes of the reply room and no others; the state buffer as said above. A refusal may have a reply,
 * too: send what *sent counts, whatever the number is. */
uint8_t birlimock_receive(uint8_t *state, size_t state_len,
                          const uint8_t *frame, size_t frame_len,
                          const uint8_t *guk, size_t guk_len,
                          const uint8_t *ak, size_t ak_len,
                          const uint8_t *challenge, size_t challenge_len,
                          uint8_t *reply, size_t reply_len,
                          size_t *sent);

#ifdef __cplusplus
}
#endif

#endif
