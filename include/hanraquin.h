/*
 * Hanraquin in C: 3964R frames and both halves of a cable's end, MoP telegrams at a station and at the centre, a dry run of a
 * net, and the gate bus with its barriers.
 *
 *     make staticlib
 *     cc -std=c99 -Iinclude program.c target/staticlib/libhanraquin.a -o program
 *
 * The archive is for x86-64 Linux. Of other libraries it needs only memcpy and memset. examples/c/dock.c is a whole program
 * for the net and its cables, examples/c/barrier.c one for the gate bus, and examples/c/telegram.c feeds a sending half.
 *
 * The calls work on memory that the caller lends, use no heap, and keep nothing from call to call. Several threads may call
 * them at the same time on different buffers.
 *
 * What is proved of the calls, and what is only trusted (this header too), is in docs/ARCHITECTURE.md.
 *
 * Rows of bytes are in hex. All other numbers are decimal, unless they have 0x.
 *
 *
 * ANSWERS
 *
 * Every call gives a uint64_t:
 *
 *     bits 0 to 31     the value; 0 unless the kind is 0
 *     bits 32 to 39    the kind: 0 done, 1 to 12, 15 or 16 refused with that number, 255 not mine
 *     bits 40 to 63    0
 *
 * hanraquin_value and hanraquin_kind take it apart. "Not mine" is no fault: the telegram is in order, but for somebody else.
 * Only hanraquin_station and hanraquin_read_reply give it. A compiler that can do so warns where an answer is dropped.
 *
 * The refusals of a call are listed with it in the order in which they are checked: the first that applies is given. A call
 * that is refused, or answers "not mine", leaves all that it was lent as it was. There are two exceptions:
 * hanraquin_read_reply then sets its outputs to 0, unless their lengths are wrong; and hanraquin_gate_receive then sets its
 * state to 0, unless it is refused with 1.
 *
 *
 * LENT MEMORY
 *
 * A slice is passed as a pointer and the number of its elements, which are not always bytes. Of every slice of a call:
 *
 *   - The pointer is not null and is aligned for its type, even if the length is 0; then nothing is read or written there.
 *   - There are as many elements as the length says, in one object, and each holds a value: initialise outputs too.
 *   - It does not overlap another slice of the same call.
 *   - While the call runs, no other thread writes it, or reads it if it is not const.
 *
 * Nothing else is asked. Lengths, bytes and numbers may be any; what is wrong with them is answered by a refusal.
 *
 * A call that writes a frame, a telegram, a command or a barrier's answer puts it into the first elements of out, and its
 * value is the length. The elements behind it keep what they held.
 *
 *
 * TELEGRAMS
 *
 * Except on the gate bus, a telegram is one of MoP. It is a header and a body, together at most 1024 bytes. A request
 * (function byte 0x60) goes from the centre to a station, its destination; a reply (0xE0) comes back. Both may pass other
 * stations on the way, the relays.
 *
 *     standard header    function, control byte, block of 4 entries                              6 bytes
 *     extended header    function, control byte, mark of 4 bytes, count n, block of n entries    7 + n bytes
 *
 * Counted from 0, bytes 2 to 5 are the mark of an extended header if bytes 3 to 5 are 0xEF, and byte 2 is 0xEF, or 0 in a
 * reply. In an extended reply byte 2 must be 0 if the first entry of the block is 0, and 0xEF if not. The count n is 2 to
 * 32. The control byte may be any; in a new telegram it is 0xFF.
 *
 * An entry of the block is the address of a station, 1 to 240, or 0, which stands for the centre. No address is there twice.
 * At least one entry is 0, and all of these are next to each other, where the first entry counts as the one after the last.
 *
 * The first entry says who has to handle the telegram. A relay of a request rolls the block to the left before it sends: the
 * first entry becomes the last. The destination and the relays of a reply roll it to the right.
 *
 * Numbers of two bytes have the high byte first. The bodies:
 *
 *     request    read start (2 bytes), read count (1), write start (2), write count w (1), w values (2 each)
 *     reply      read start (2 bytes), read count r (1), r values (2 each)
 *
 * A run is a start, which is the number of a register, and a count of registers whose numbers follow each other. All values
 * are written before any is read. A run of 0 registers may have any start.
 *
 * This reads register 955 of station 0x55, over the relays 0x12 and 0x13, and writes 1 to its register 300; and the reply:
 *
 *     60 FF 12 13 55 00   03 BB 01 01 2C 01 00 01
 *     E0 FF 00 12 13 55   03 BB 01 00 00
 *
 * Faults of a header, in the order in which they are checked:
 *
 *     12    a telegram of more than 1024 bytes
 *      2    fewer than 6 bytes
 *      3    a function byte that is neither 0x60 nor 0xE0; where a reply is read: that is not 0xE0
 *      2    an extended header, and fewer than 7 bytes
 *      4    an extended header, and a count that is not 2 to 32
 *      2    an extended header, and fewer than 7 + n bytes
 *      5    a block that breaks the rule above; where a reply is read, also one that has no address
 *      6    an extended reply whose mark is not the one that its block asks for
 *
 *
 * REGISTERS
 *
 * A station has HANRAQUIN_REGISTERS registers of 16 bits. The caller keeps their values in a table in this order:
 *
 *     place   number   holds                                          write   range               factory
 *     0       2        binary inputs                                  no      any                 0
 *     1       300      binary outputs                                 yes     0 to 3              0
 *     2       931      analogue input 1                               no      any                 0
 *     3       932      analogue input 2                               no      any                 0
 *     4       933      event counter 1                                no      any                 0
 *     5       934      event counter 2                                no      any                 0
 *     6       935      event counter 3                                no      any                 0
 *     7       936      event counter 4                                no      any                 0
 *     8       952      minutes from one measurement to the next       yes     1 to 1440           15
 *     9       953      seconds from sensor power to measurement       yes     2 to 25             2
 *     10      955      radio cycles: start, 256 x hour + minute       yes     time of day         0
 *     11      956      radio cycles: second of the start              yes     0 to 59             0
 *     12      957      radio cycles: end, as 955; 65535 is no end     yes     time of day, 65535  65535
 *     13      958      minutes from one radio cycle to the next       yes     1 to 1440           30
 *     14      959      seconds of a radio cycle; 65535 is always on   yes     1 to 3600, 65535    60
 *     15      960      search mode: minutes with the radio on         yes     1 to 1440           15
 *     16      961      search mode: minutes with the radio off        yes     1 to 1440           30
 *     17      962      search mode: 1 to enter it after every reset   yes     0 to 1              0
 *
 * A time of day is 256 x hour + minute, with an hour of 0 to 23 and a minute of 0 to 59. 08:75 is none; a write of it is
 * refused with 10. No other number is a register: there is no 954. "Write" and "range" are asked of what a telegram
 * writes. The caller may put any value into the table, and what is there is read as it is.
 *
 *
 * THE GATE BUS
 *
 * The barriers at the gates share a LogiTed bus, which is RS485. Masters have the addresses 0 to 0x0F on it, and slaves, as
 * the barriers are, 0x10 to 0xFE. Nobody has 0xFF. A gate telegram has 6 to 259 bytes:
 *
 *     start byte 55, destination, source, length n, n bytes of data, check (2 bytes, the high one first)
 *
 * The length is 0 to 253. The check is the CRC-16 of all that stands before it, the 55 too, with the polynomial 0x1021 and
 * the start value 0xFFFF; each byte goes in with its top bit first, and the result is sent as it is. The nine characters
 * 123456789 have the check 29 B1.
 *
 * A gate telegram without data is a token. It goes from a master to a master: 0 to 0x0F are its destination and its source.
 * With data, any address but 0xFF may send to any other or to itself; whether it is its turn is not judged here.
 *
 * Master 0 sends an operating command to barrier 0x10, and the token to master 1:
 *
 *     55 10 00 03 01 01 01 F7 86
 *     55 01 00 00 7A 8E
 *
 * An operating command is data of 3 bytes: 01, the command, the function.
 *
 *     command     00 BT, 01 BA, 02 BZ, 03 BS, 04 to 09 multifunction relay 1 to 6
 *     function    00 pulse, 01 activate, 02 deactivate
 *
 * A barrier has a level register and an edge register for each command, and each of these is 0 or 1. An edge of BA has the
 * barrier open itself, and while the level of BA is 1 it does not close. The command above is BA, activate.
 *
 * The answers of a barrier are data too. Their first byte is the kind:
 *
 *     ack              01             yes
 *     nak              02             no
 *     busy             03             not at present
 *     syn              04             it takes time, and another answer will follow
 *     vehicle count    1C, 4 bytes    any number of 32 bits in two's complement, the lowest byte first
 *     position         1D, 1 byte     00 to 64: from 0, closed, to 100, open, in percent; or FF: -1, unknown
 *
 * All other data is for the caller to make and to read. So the query 02 18 00, which asks a barrier for its position, is
 * handed to hanraquin_gate_write as it is.
 */
#ifndef HANRAQUIN_H
#define HANRAQUIN_H

#include <stddef.h>
#include <stdint.h>

/* Stands before the calls whose answer is not to be dropped. */
#if defined(__cplusplus) && __cplusplus >= 201703L
#define HANRAQUIN_ANSWER [[nodiscard]]
#elif !defined(__cplusplus) && defined(__STDC_VERSION__) && __STDC_VERSION__ >= 202311L
#define HANRAQUIN_ANSWER [[nodiscard]]
#elif defined(__GNUC__)
#define HANRAQUIN_ANSWER __attribute__((warn_unused_result))
#else
#define HANRAQUIN_ANSWER
#endif

#ifdef __cplusplus
extern "C" {
#endif

/* Kinds of answers. In the gate calls 1, 3, 7, 10 and 11 mean what the list of each call says, and not what is said here. */
#define HANRAQUIN_DONE 0
#define HANRAQUIN_REFUSED_SETUP 1          /* address, table, state, event, net or the length of a fixed slice is wrong */
#define HANRAQUIN_REFUSED_HEADER_CUT 2     /* the header is cut short */
#define HANRAQUIN_REFUSED_FUNCTION 3       /* the function byte is not allowed here */
#define HANRAQUIN_REFUSED_EXTENDED_COUNT 4 /* the count of an extended header is not 2 to 32 */
#define HANRAQUIN_REFUSED_BLOCK 5          /* the block or the route breaks its rule */
#define HANRAQUIN_REFUSED_MARK 6           /* the mark disagrees with the block */
#define HANRAQUIN_REFUSED_BODY_LENGTH 7    /* the body has the wrong length */
#define HANRAQUIN_REFUSED_NO_REGISTER 8    /* there is no such register */
#define HANRAQUIN_REFUSED_NO_WRITE 9       /* the register takes no write */
#define HANRAQUIN_REFUSED_VALUE_RANGE 10   /* the written value is out of the register's range */
#define HANRAQUIN_REFUSED_OUTPUT_SHORT 11  /* the output is too short */
#define HANRAQUIN_REFUSED_TOO_LONG 12      /* data or telegram over 1024 bytes, or a run over 255 registers */
#define HANRAQUIN_REFUSED_CHECK 15         /* gate calls only: the check of a telegram is wrong */
#define HANRAQUIN_REFUSED_ADDRESS 16       /* gate calls only: the address 0xFF, or a token to or from a slave */
#define HANRAQUIN_NOT_MINE 255

/* Lengths, in elements. */
#define HANRAQUIN_STATE 3          /* state of hanraquin_receive */
#define HANRAQUIN_REGISTERS 18     /* registers of a station */
#define HANRAQUIN_ROUTE 31         /* most stations of a route; route of hanraquin_read_reply */
#define HANRAQUIN_RUN 3            /* run of hanraquin_read_reply */
#define HANRAQUIN_RESULT 3         /* result of hanraquin_dry_run */
#define HANRAQUIN_DATA_MAX 1024    /* most data of a frame; a buffer for every message */
#define HANRAQUIN_FRAME_MAX 2051   /* longest frame */
#define HANRAQUIN_TELEGRAM 1024    /* longest telegram; an output for all that a station sends; least output of a dry run */
#define HANRAQUIN_REQUEST_MAX 555  /* longest request that hanraquin_write_request writes */
#define HANRAQUIN_RUN_MAX 255      /* most registers of a run */
#define HANRAQUIN_STATIONS_MAX 64  /* most stations of a dry run */

/* The link: bytes, the event of a timer, phases, and values of hanraquin_receive. */
#define HANRAQUIN_STX 0x02         /* opens a block */
#define HANRAQUIN_DLE 0x10         /* the good answer */
#define HANRAQUIN_NAK 0x15         /* the bad answer */
#define HANRAQUIN_TIMER 256        /* event: the timer ran out; only HANRAQUIN_START is larger */
#define HANRAQUIN_PHASE_REST 0
#define HANRAQUIN_PHASE_INSIDE 1
#define HANRAQUIN_PHASE_AFTER_DLE 2
#define HANRAQUIN_PHASE_WAITING 3  /* for the check byte */
#define HANRAQUIN_NOTHING 0
#define HANRAQUIN_SEND 256         /* and the byte */
#define HANRAQUIN_MESSAGE 65536    /* and the number of its bytes */

/* The sending half of a link: length of its state, limits, the event that starts it, priorities, and phases. */
#define HANRAQUIN_SEND_STATE 9            /* state of hanraquin_send */
#define HANRAQUIN_SEND_LIMIT_MIN 1        /* least number of attempts that a limit may be */
#define HANRAQUIN_SEND_LIMIT_MAX 255      /* and the greatest */
#define HANRAQUIN_START 257               /* event of hanraquin_send: begin; no event is larger */
#define HANRAQUIN_SEND_LOW 0              /* yields where both ends open together */
#define HANRAQUIN_SEND_HIGH 1             /* keeps waiting there */
#define HANRAQUIN_SEND_PHASE_FRESH 0
#define HANRAQUIN_SEND_PHASE_OPENING 1
#define HANRAQUIN_SEND_PHASE_AWAITING 2   /* the answer to the block */
#define HANRAQUIN_SEND_PHASE_RECEIVING 3  /* having yielded */
#define HANRAQUIN_SEND_PHASE_SENT 4
#define HANRAQUIN_SEND_PHASE_GAVE_UP 5

/* A fresh sending half: uint64_t state[HANRAQUIN_SEND_STATE] = HANRAQUIN_SEND_FRESH(3, 2, HANRAQUIN_SEND_LOW); */
#define HANRAQUIN_SEND_FRESH(connections, blocks, priority) \
    {HANRAQUIN_SEND_PHASE_FRESH, (uint64_t)(connections), (uint64_t)(blocks), (uint64_t)(priority), 0, 0, 0, 0, 0}

/* Endings of a dry run. Any other is the number with which a station refused, 7 to 10. */
#define HANRAQUIN_AT_ZERO 0        /* at an entry 0 */
#define HANRAQUIN_AT_NOBODY 1      /* at an address that no station has */

/* The gate bus: lengths, in elements. */
#define HANRAQUIN_GATE_STATE 7               /* state of hanraquin_gate_receive */
#define HANRAQUIN_GATE_STORE 253             /* store of hanraquin_gate_receive */
#define HANRAQUIN_GATE_DATA_MAX 253          /* most data of a gate telegram; an output for all that is received */
#define HANRAQUIN_GATE_TELEGRAM_MAX 259      /* longest gate telegram */
#define HANRAQUIN_GATE_REGISTERS 10          /* levels and edges of hanraquin_gate_operate */
#define HANRAQUIN_GATE_COMMAND_LENGTH 3      /* an operating command */
#define HANRAQUIN_GATE_ANSWER_MAX 5          /* longest answer of a barrier */

/* The gate bus: the start byte, phases, and values of hanraquin_gate_receive. Its other value is 0, HANRAQUIN_NOTHING. */
#define HANRAQUIN_GATE_START 0x55
#define HANRAQUIN_GATE_PHASE_REST 0
#define HANRAQUIN_GATE_PHASE_DESTINATION 1
#define HANRAQUIN_GATE_PHASE_SOURCE 2        /* 2 to 5: in a telegram for the own address */
#define HANRAQUIN_GATE_PHASE_LENGTH 3
#define HANRAQUIN_GATE_PHASE_DATA 4
#define HANRAQUIN_GATE_PHASE_CHECK 5
#define HANRAQUIN_GATE_PHASE_OTHER_SOURCE 6  /* 6 to 8: in a telegram for another */
#define HANRAQUIN_GATE_PHASE_OTHER_LENGTH 7
#define HANRAQUIN_GATE_PHASE_DROPPING 8
#define HANRAQUIN_GATE_TELEGRAM 65536        /* and 256 x source + number of data bytes */
#define HANRAQUIN_GATE_TOKEN 131072          /* and the source */

/* The gate bus: operating commands, which are also the places of their levels and edges; and functions. */
#define HANRAQUIN_GATE_BT 0
#define HANRAQUIN_GATE_BA 1
#define HANRAQUIN_GATE_BZ 2
#define HANRAQUIN_GATE_BS 3
#define HANRAQUIN_GATE_RELAY_1 4
#define HANRAQUIN_GATE_RELAY_2 5
#define HANRAQUIN_GATE_RELAY_3 6
#define HANRAQUIN_GATE_RELAY_4 7
#define HANRAQUIN_GATE_RELAY_5 8
#define HANRAQUIN_GATE_RELAY_6 9
#define HANRAQUIN_GATE_PULSE 0
#define HANRAQUIN_GATE_ACTIVATE 1
#define HANRAQUIN_GATE_DEACTIVATE 2

/* The gate bus: kinds of a barrier's answers. The first two are also the values of hanraquin_gate_operate. */
#define HANRAQUIN_GATE_ACK 0x01
#define HANRAQUIN_GATE_NAK 0x02
#define HANRAQUIN_GATE_BUSY 0x03
#define HANRAQUIN_GATE_SYN 0x04
#define HANRAQUIN_GATE_COUNT 0x1C
#define HANRAQUIN_GATE_POSITION 0x1D

/* The factory values: uint16_t registers[HANRAQUIN_REGISTERS] = HANRAQUIN_FACTORY; */
#define HANRAQUIN_FACTORY {0, 0, 0, 0, 0, 0, 0, 0, 15, 2, 0, 0, 65535, 30, 60, 15, 30, 0}

/* The kind of an answer. */
static inline unsigned hanraquin_kind(uint64_t answer)
{
    return (unsigned)(answer >> 32 & 0xFF);
}

/* The value of an answer. */
static inline uint32_t hanraquin_value(uint64_t answer)
{
    return (uint32_t)(answer & 0xFFFFFFFF);
}

/* Whether a call did what it was asked. */
static inline int hanraquin_done(uint64_t answer)
{
    return hanraquin_kind(answer) == HANRAQUIN_DONE;
}

/* Of an answer of hanraquin_send: how many bytes are to be sent. */
static inline size_t hanraquin_send_length(uint64_t answer)
{
    return hanraquin_value(answer) % HANRAQUIN_MESSAGE;
}

/* Of an answer of hanraquin_send: whether a message came. */
static inline int hanraquin_send_has_message(uint64_t answer)
{
    return hanraquin_value(answer) >= HANRAQUIN_MESSAGE;
}

/* Of an answer of hanraquin_send: how many bytes the message has; 0 also where none came. */
static inline size_t hanraquin_send_message_length(uint64_t answer)
{
    return hanraquin_send_has_message(answer) ? hanraquin_value(answer) / HANRAQUIN_MESSAGE - 1 : 0;
}

/* The number that two bytes of a telegram make, the high one first. */
static inline uint16_t hanraquin_word(const uint8_t *two_bytes)
{
    return (uint16_t)(two_bytes[0] << 8 | two_bytes[1]);
}

/*
 * Writes the frame of data: the data with every 0x10 in it doubled, closed by 10 03, and at its end a check byte, which is
 * all that stands before it, taken together by exclusive or. The STX that opens a block on the cable is no part of the
 * frame: send it first.
 *
 *     data    0 to 1024 bytes
 *     out     2051 places are always enough, and 2 x data_len + 3 for this data
 *
 * Refusals
 *     12    data_len is over 1024
 *     11    out is shorter than the frame
 *
 * Value: the length of the frame, 3 to 2051.
 * Afterwards out begins with the frame, and is as it was behind it. Refused: out is as it was.
 */
HANRAQUIN_ANSWER
uint64_t hanraquin_frame(const uint8_t *data, size_t data_len, uint8_t *out, size_t out_len);

/*
 * Tells the receiving half of a link one event: a byte came, or the timer ran out.
 *
 *     state     3 places: the phase (0 rest, 1 inside a block, 2 inside after a DLE, 3 waiting for the check byte), the
 *               count of data bytes in the buffer, and the running check. {0, 0, 0} is a half at rest.
 *     event     a byte, 0 to 255, or HANRAQUIN_TIMER, 256. Anything above is refused with 1, so that a byte from a signed
 *               char, which may be below 0, does not become a timer; hand it over as a uint8_t.
 *     buffer    takes the data of a block; 1024 places are enough for every message, and no more are used
 *
 * Refusals
 *     1     event is over 256; or state_len is not 3; or the phase is over 3; or the check is over 255; or the count is over
 *           buffer_len or 1024
 *
 * Value
 *     0            send nothing
 *     256 + b      send the byte b
 *     65536 + n    send 0x10; the first n bytes of buffer, 0 to 1024, are a message
 *
 * Afterwards state is what the next call has to be handed, with the same buffer. An event changes at most one place of the
 * buffer, the one at the count; an event that ends at rest changes none, and leaves {0, 0, 0}. So a message stays in the
 * buffer until data of the next block comes. Refused: state and buffer are as they were.
 *
 *     phase            event             value                             next phase
 *     0 rest           0x02              256 + 0x10                        1, with count 0 and check 0
 *     0                0x15, timer       0                                 0
 *     0                other byte        256 + 0x15                        0
 *     1 inside         0x10              0                                 2
 *     1                other byte        stored: 0; no room: 256 + 0x15    stored: 1; no room: 0
 *     2 after a DLE    0x10              the same, with the byte 0x10      the same
 *     2                0x03              0                                 3
 *     2                other byte        256 + 0x15                        0
 *     3 waiting        the check         65536 + count                     0
 *     3                other byte        256 + 0x15                        0
 *     1, 2, 3          timer             256 + 0x15                        0
 *
 * A stored byte is put at the place of the count, which is then one more. There is no room when the count is buffer_len or
 * 1024. In phases 1 and 2 each byte goes into the check by exclusive or, unless the event ends at rest.
 *
 * A loop; byte_or_timer waits for a byte, and no longer than its argument says, which is 0 for "without end". How long a
 * timer runs is for the caller to say:
 *
 *     uint64_t state[HANRAQUIN_STATE] = {0};
 *     uint8_t buffer[HANRAQUIN_DATA_MAX] = {0};
 *     for (;;) {
 *         uint32_t event = byte_or_timer(state[0] == HANRAQUIN_PHASE_REST ? 0 : MILLISECONDS);
 *         uint64_t answer = hanraquin_receive(state, HANRAQUIN_STATE, event, buffer, sizeof buffer);
 *         uint32_t value = hanraquin_value(answer);
 *         if (!hanraquin_done(answer))
 *             break;
 *         if (value >= HANRAQUIN_MESSAGE) {
 *             send_byte(HANRAQUIN_DLE);
 *             take_message(buffer, value - HANRAQUIN_MESSAGE);
 *         } else if (value >= HANRAQUIN_SEND) {
 *             send_byte((uint8_t)(value - HANRAQUIN_SEND));
 *         }
 *     }
 */
HANRAQUIN_ANSWER
uint64_t hanraquin_receive(uint64_t *state, size_t state_len, uint32_t event, uint8_t *buffer, size_t buffer_len);

/*
 * Tells the sending half of a link one event: it has to start, a byte came, or the timer ran out. The half opens by 02,
 * sends the data as a block when 10 comes, and is done when 10 comes once more. Any other byte, and the timer, fails an
 * attempt, and there are as many as the limits say. Where both ends open together, the one of low priority yields: it
 * receives the block of the other, and then begins afresh.
 *
 *     state     9 places, see below. {0, C, B, priority, 0, 0, 0, 0, 0} is a fresh half; HANRAQUIN_SEND_FRESH makes one.
 *     event     a byte, 0 to 255; HANRAQUIN_TIMER, 256; or HANRAQUIN_START, 257. Anything above is refused with 1; hand a
 *               byte over as a uint8_t.
 *     data      what is to be sent, 0 to 1024 bytes
 *     buffer    takes the data of a block that comes while the half has yielded; 1024 places are enough for every message,
 *               and no more are used
 *     out       takes the bytes to send; HANRAQUIN_FRAME_MAX places are enough for every event, and 2 for every event but
 *               the one that sends the block
 *
 * Refusals, for every event and in every phase
 *     1     event is over 257; or state_len is not 9; or the state is none of those below
 *     12    data_len is over 1024
 *     11    out is shorter than what the event sends
 *
 * Value
 *     n                        send the first n bytes of out: 0 to 2, or the 3 to 2051 of a block
 *     65536 x (m + 1) + n      the same; and the first m bytes of buffer, 0 to 1024, are a message
 *
 * hanraquin_send_length gives n, hanraquin_send_has_message tells the two apart, and hanraquin_send_message_length gives m.
 *
 * Afterwards state is what the next call has to be handed, with the same data and buffer. out begins with the bytes to
 * send, and is as it was behind them. The buffer changes in phase 3 only, and as hanraquin_receive changes it: a message
 * stays there until data of a next block comes. Refused: state, buffer and out are as they were, and the event may be handed
 * over again.
 *
 *     word      holds                                                          range
 *     0         phase                                                          0 to 5
 *     1         C: connection attempts for each block attempt                  1 to 255
 *     2         B: block attempts                                              1 to 255
 *     3         priority                                                       0 low, 1 high
 *     4         c: connection attempts that failed, in this block attempt      0 to C
 *     5         b: block attempts that failed                                  0 to B
 *     6 to 8    in phase 3 the words of a receiving half that is lent buffer   as hanraquin_receive takes them
 *               in all other phases                                            0
 *
 *     phase           event                 sends                          next phase
 *     0 fresh         start                 02                             1, with c = 0 and b = 0
 *     1 opening       0x10                  the block                      2
 *     1               0x02, low             10                             3, with c = 0, b = 0 and the half {1, 0, 0}
 *     1               0x02, high            nothing                        1
 *     1               other byte, timer     if c + 1 < C: 02               1, with c one more
 *                                           if not: nothing                5, with c = C
 *     2 awaiting      0x10                  nothing                        4
 *     2               other byte, timer     if b + 1 < B: 02               1, with c = 0 and b one more
 *                                           if not: nothing                5, with b = B
 *     3 receiving     byte, timer           what the half sends            3, unless the half is then at rest
 *                                           if it is: the same and 02      1, with c = 0 and b = 0
 *     4 sent          any                   nothing                        4
 *     5 gave up       any                   nothing                        5
 *
 * What is not in the table, a byte or the timer in phase 0 and start in phases 1 to 3, sends nothing and changes nothing. The
 * block is the frame of the data, as hanraquin_frame writes it. A half that yields ends this by 10 02 and a message, if the
 * block of the other end is good, and by 15 02 if not.
 *
 * From a fresh state or a yield up to the next yield, whatever comes, no more than C x B opening bytes 02 and B blocks are
 * sent, if the state is passed on as it is. Where the answer to a block is lost, the block is sent again and may come twice;
 * and "gave up" does not say that nothing came.
 *
 * What the caller has to do:
 *
 *   - Run the timer in phases 1, 2 and 3, and start it anew with each event. (So a high end waits for as long as 02 comes
 *     in time. If that has to end, do not start the timer anew for a 02 in phase 1.)
 *   - In these phases hand what comes to this call, and in the others to hanraquin_receive, with a state of its own. Start
 *     only while that receiving half is at rest.
 *   - Drop what comes while a block, which is 3 bytes or more, is still going out, and do not hand it over later: a 10 would
 *     be taken for the answer to the block, and a 15 would send 02 into it.
 *   - Hand over the same data at every event of one sending.
 *   - Give one end of a cable high priority, and the other one low. Two low ends that open together yield to each other
 *     again and again, and with C = 1 both give up; two high ends both give up.
 *   - Go on listening at the high end. The low end ends its yield by 10 02: with this 10 the high end is in phase 4, and the
 *     02 opens a block for hanraquin_receive.
 *   - Begin the next sending with a fresh state.
 *
 * A loop for one sending. byte_or_timer is as for hanraquin_receive. send_block returns when the last byte is out, and drops
 * what came up to then:
 *
 *     uint64_t state[HANRAQUIN_SEND_STATE] = HANRAQUIN_SEND_FRESH(3, 2, HANRAQUIN_SEND_LOW);
 *     uint8_t buffer[HANRAQUIN_DATA_MAX] = {0}, out[HANRAQUIN_FRAME_MAX] = {0};
 *     for (uint32_t event = HANRAQUIN_START;; event = byte_or_timer(MILLISECONDS)) {
 *         uint64_t answer = hanraquin_send(state, HANRAQUIN_SEND_STATE, event, data, data_len, buffer, sizeof buffer,
 *                                          out, sizeof out);
 *         size_t length = hanraquin_send_length(answer);
 *         if (!hanraquin_done(answer))
 *             break;
 *         if (length > 2)
 *             send_block(out, length);
 *         else
 *             send_bytes(out, length);
 *         if (hanraquin_send_has_message(answer))
 *             take_message(buffer, hanraquin_send_message_length(answer));
 *         if (state[0] == HANRAQUIN_SEND_PHASE_SENT || state[0] == HANRAQUIN_SEND_PHASE_GAVE_UP)
 *             break;
 *     }
 */
HANRAQUIN_ANSWER
uint64_t hanraquin_send(uint64_t *state, size_t state_len, uint32_t event, const uint8_t *data, size_t data_len,
                        uint8_t *buffer, size_t buffer_len, uint8_t *out, size_t out_len);

/*
 * Lets a station handle a telegram that it heard: it relays the telegram, or carries it out and answers.
 *
 *     own          its address, 1 to 240
 *     registers    its HANRAQUIN_REGISTERS values, in the order of the table above
 *     telegram     any bytes
 *     out          1024 places are always enough
 *
 * Refusals, and not mine
 *     1                own is not 1 to 240, or registers_len is not HANRAQUIN_REGISTERS
 *     12, 2 to 6       a fault of the header, in the order given above
 *     255 not mine     the first entry of the block is not own
 *   as a relay (of every reply, and of a request whose second entry is not 0; the body is not looked at)
 *     11               out is shorter than the telegram
 *   as the destination (of a request whose second entry is 0)
 *     7                the body has fewer than 6 bytes, or not 6 + 2 x write count
 *     8                a register of the read run or of the write run does not exist; none does past 65535
 *     9                a register of the write run takes no write
 *     10               a value is out of the range of its register
 *     11               out is shorter than the reply: header length + 3 + 2 x read count, at most 58
 *
 * Value: the length of the telegram that is to be sent.
 * Afterwards out begins with that telegram, and is as it was behind it. The destination has written all values of the
 * request to its registers; a relay has not changed any. Refused or not mine: registers and out are as they were.
 */
HANRAQUIN_ANSWER
uint64_t hanraquin_station(uint8_t own, uint16_t *registers, size_t registers_len, const uint8_t *telegram,
                           size_t telegram_len, uint8_t *out, size_t out_len);

/*
 * Writes the centre's request for a station. Up to three stations make a standard header, more an extended one.
 *
 *     route          1 to 31 different addresses, each 1 to 240: the relays in order, and the destination last
 *     read_start     number of the first register to read
 *     read_count     how many to read, 0 to 255
 *     write_start    number of the first register to write
 *     values         the values to write, 0 to 255 of them
 *     out            555 places are always enough
 *
 * Refusals
 *     5     route_len is not 1 to 31, an entry is not 1 to 240, or an address is there twice
 *     12    read_count is over 255, or values_len is
 *     11    out is shorter than the request
 *
 * Value: the length of the request, 12 to 555. Registers and values are not judged here, but by the destination.
 * Afterwards out begins with the request, and is as it was behind it. Refused: out is as it was.
 */
HANRAQUIN_ANSWER
uint64_t hanraquin_write_request(const uint8_t *route, size_t route_len, uint16_t read_start, size_t read_count,
                                 uint16_t write_start, const uint16_t *values, size_t values_len, uint8_t *out,
                                 size_t out_len);

/*
 * Reads at the centre a telegram that came back.
 *
 *     telegram    any bytes
 *     route       31 places
 *     run         3 places
 *
 * Refusals, and not mine
 *     1                route_len is not 31, or run_len is not 3
 *     12, 2 to 6       a fault of the header, in the order given above, as it is read at the centre
 *     255 not mine     the first entry of the block is not 0: the reply is for a relay
 *     7                the body is not 3 + 2 x read count bytes long
 *
 * Value: the number of value bytes, 2 x read count.
 * Afterwards route has the stations of the block in order, the destination last, and 0 in the places that are left. run has
 * the read start, the read count, and the place in telegram where the value bytes begin; that place is the length of the
 * header + 3, also if there are no values. Value i, from 0 on, is hanraquin_word(telegram + run[2] + 2 * i).
 * Refused with 1: route and run are as they were. Any other refusal, and not mine: route and run are all 0.
 */
HANRAQUIN_ANSWER
uint64_t hanraquin_read_reply(const uint8_t *telegram, size_t telegram_len, uint8_t *route, size_t route_len,
                              uint16_t *run, size_t run_len);

/*
 * Plays the journey of a telegram through a net of stations, without a radio. The telegram is the first transmission. The
 * station that its first entry names handles it, what that sends is the next transmission, and so on.
 *
 *     telegram     any bytes
 *     addresses    0 to 64 different addresses, each 1 to 240, in any order
 *     tables       HANRAQUIN_REGISTERS values for each address, in the same order
 *     out          1024 places or more
 *     result       3 places
 *
 * Refusals
 *     1         result_len is not 3; addresses_len is over 64; an address is not 1 to 240, or is there twice; or tables_len
 *               is not HANRAQUIN_REGISTERS x addresses_len
 *     12        telegram_len is over 1024
 *     11        out_len is under 1024
 *     2 to 6    a fault of the header, in the order given above
 *
 * Value: the count of the transmissions, with the first: 1 to 62.
 * Afterwards result has that count; the ending; and the length of the last telegram. The ending is 0 at an entry 0, where a
 * reply reaches the centre; 1 at an address that no station has; or 7 to 10, the number with which a station refused the
 * last telegram (the kind of the answer is 0 all the same). The last telegram is in the first places of out, the others of
 * its first 1024 places are 0, and behind these out is as it was. The tables are as the stations left them. Refused: tables,
 * out and result are as they were.
 */
HANRAQUIN_ANSWER
uint64_t hanraquin_dry_run(const uint8_t *telegram, size_t telegram_len, const uint8_t *addresses, size_t addresses_len,
                           uint16_t *tables, size_t tables_len, uint8_t *out, size_t out_len, uint32_t *result,
                           size_t result_len);

/*
 * Writes a gate telegram.
 *
 *     destination    whom it is for, 0 to 0xFE
 *     source         who sends it, 0 to 0xFE
 *     data           0 to 253 bytes, which are not looked into; 0 bytes make a token
 *     out            259 places are always enough, and data_len + 6 for this data
 *
 * Refusals
 *     16    destination or source is 0xFF; or data_len is 0, and either is over 0x0F
 *     7     data_len is over 253
 *     11    out is shorter than the telegram
 *
 * Value: the length of the telegram, data_len + 6: 6 to 259.
 * Afterwards out begins with the telegram, and is as it was behind it. Refused: out is as it was.
 */
HANRAQUIN_ANSWER
uint64_t hanraquin_gate_write(uint8_t destination, uint8_t source, const uint8_t *data, size_t data_len, uint8_t *out,
                              size_t out_len);

/*
 * Tells a receiver on the gate bus one event: a byte came, or the timer ran out. A telegram begins with a start byte; one for
 * another address is counted off by its length and not read, and one for the own address is judged at its last byte.
 *
 *     own      its address, 0 to 0xFE
 *     state    7 places, see below. All 0 is a receiver at rest.
 *     store    253 places, where data waits until its telegram is judged
 *     event    a byte, 0 to 255, or HANRAQUIN_TIMER, 256. Anything above is refused with 1; hand a byte over as a uint8_t.
 *     out      takes the data of an accepted telegram; 253 places are always enough
 *
 * Refusals
 *     1     event is over 256; or state_len is not 7, or store_len not 253; or the state is none of those below
 *     16    own is 0xFF, whatever the event
 *     7     the event is the length byte of a telegram for own, and is 254 or 255
 *   where the event is the last byte of a telegram for own
 *     15    the check is wrong
 *     16    the source is 0xFF; or it is a token, and the source or the destination is over 0x0F
 *     11    out is shorter than the data
 *
 * Value
 *     0                         nothing
 *     65536 + 256 x s + n       a telegram with data came from s; the first n bytes of out, 1 to 253, are its data
 *     131072 + s                a token came from s
 *
 * Afterwards state is what the next call has to be handed, with the same store. A telegram, a token, the timer, and every
 * refusal but 1 leave it all 0: the receiver starts again. An event changes at most one place of the store, the one at the
 * count, and nothing clears the store. Only a telegram changes out, which begins with its data, and is as it was behind.
 * Refused with 1: state, store and out are as they were. Refused otherwise: state is all 0, store and out are as they were.
 *
 * Word 0 of the state is the phase. The words that a phase does not have are 0.
 *
 *     phase                                               has the words
 *     0 rest                                              none
 *     1 waiting for the destination                       none
 *     2 in a telegram for own, waiting for the source     1, 5
 *     3 .. for the length                                 1, 2, 5
 *     4 .. for data, or then for the high check byte      1, 2, 3, 4, 5
 *     5 .. for the low check byte                         1, 2, 3, 5, 6
 *     6 in one for another, waiting for the source        none
 *     7 .. for the length                                 none
 *     8 .. dropping what is left                          4
 *
 *     word   holds                                             range
 *     1      destination                                       0 to 255
 *     2      source                                            0 to 255
 *     3      length                                            0 to 253
 *     4      in phase 4 the count of data bytes stored         0 to the length
 *            in phase 8 the number of bytes left to drop       0 to 257; 0 is taken as 1
 *     5      running check: of the 55 and all behind it, up    0 to 65535
 *            to the last byte of data
 *     6      high check byte                                   0 to 255
 *
 *     phase   event         value, or refusal                   next phase
 *     0       0x55          0                                   1
 *     0       other byte    0                                   0
 *     1       own           0                                   2
 *     1       other byte    0                                   6, for 0x55 and 0xFF too
 *     2       any byte      0                                   3
 *     3       0 to 253      0                                   4, with count 0
 *     3       254, 255      7                                   0
 *     4       any byte      0                                   stored, if the count is below the length: 4; if not: 5
 *     5       any byte      telegram, token, 15, 16 or 11       0
 *     6       any byte      0                                   7
 *     7       any byte n    0                                   8, with n + 2 left, for 254 and 255 too
 *     8       any byte      0                                   8, with one fewer left; with none left: 0
 *     all     timer         0                                   0
 *
 * A stored byte is put at the place of the count, which is then one more. Whether a telegram is for own is decided in phase
 * 1 and not again: a later call with another own goes on with it, and a token is judged by the destination in the state.
 *
 * A loop, with byte_or_timer as for hanraquin_receive, for an address that is not 0xFF. The timer is one for the whole of a
 * telegram: left_of says how many milliseconds are left since its start byte, and at least 1.
 *
 *     uint64_t state[HANRAQUIN_GATE_STATE] = {0};
 *     uint8_t store[HANRAQUIN_GATE_STORE] = {0}, out[HANRAQUIN_GATE_DATA_MAX] = {0};
 *     for (;;) {
 *         uint32_t event = byte_or_timer(state[0] == HANRAQUIN_GATE_PHASE_REST ? 0 : left_of(MILLISECONDS));
 *         uint64_t answer = hanraquin_gate_receive(own, state, HANRAQUIN_GATE_STATE, store, sizeof store, event, out,
 *                                                  sizeof out);
 *         uint32_t value = hanraquin_value(answer);
 *         if (hanraquin_kind(answer) == HANRAQUIN_REFUSED_SETUP)
 *             break;
 *         if (!hanraquin_done(answer))
 *             note_fault(hanraquin_kind(answer));
 *         else if (value >= HANRAQUIN_GATE_TOKEN)
 *             take_token((uint8_t)(value & 0xFF));
 *         else if (value >= HANRAQUIN_GATE_TELEGRAM)
 *             take_telegram((uint8_t)(value >> 8 & 0xFF), out, value & 0xFF);
 *     }
 */
HANRAQUIN_ANSWER
uint64_t hanraquin_gate_receive(uint8_t own, uint64_t *state, size_t state_len, uint8_t *store, size_t store_len,
                                uint32_t event, uint8_t *out, size_t out_len);

/*
 * Carries out an operating command on the level and edge registers of a barrier.
 *
 *     data      the data of a gate telegram
 *     levels    10 places, each 0 or 1: the level registers in the order of the commands
 *     edges     10 places, each 0 or 1: the edge registers in the same order
 *
 * Refusals
 *     1     levels_len or edges_len is not 10, or a level or an edge is over 1
 *     7     data_len is not 3
 *     3     the first byte is not 01, so that this is no operating command
 *
 * Value: what the barrier has to answer, a kind for hanraquin_gate_write_answer
 *     1    ack: the command is carried out
 *     2    nak: the command is over 9, or the function is over 2; levels and edges are as they were
 *
 * Afterwards level and edge of the named command are so, and all others as they were:
 *
 *     level before   function         level after   edge after
 *     0              00 pulse         0             1
 *     0              01 activate      1             1
 *     0              02 deactivate    0             as it was
 *     1              00 pulse         1             as it was
 *     1              01 activate      1             as it was
 *     1              02 deactivate    0             as it was
 *
 * No command sets an edge to 0; the caller does, when the barrier has acted on it. Refused: levels and edges stay as they
 * were.
 */
HANRAQUIN_ANSWER
uint64_t hanraquin_gate_operate(const uint8_t *data, size_t data_len, uint8_t *levels, size_t levels_len, uint8_t *edges,
                                size_t edges_len);

/*
 * Writes an operating command, which is data for hanraquin_gate_write.
 *
 *     command     the command, 0 to 9
 *     function    the function, 0 to 2
 *     out         3 places or more
 *
 * Refusals
 *     11    out_len is under 3
 *
 * Value: the length of the command, 3. Other commands and functions are written too; the barrier answers nak to them.
 * Afterwards out begins with the command, and is as it was behind it. Refused: out is as it was.
 */
HANRAQUIN_ANSWER
uint64_t hanraquin_gate_write_command(uint8_t command, uint8_t function, uint8_t *out, size_t out_len);

/*
 * Writes an answer of a barrier, which is data for hanraquin_gate_write.
 *
 *     kind      its kind: HANRAQUIN_GATE_ACK, NAK, BUSY, SYN, COUNT or POSITION
 *     number    for COUNT the vehicle count, any number; for POSITION the position, -1 to 100; else any, and not looked at
 *     out       5 places are always enough
 *
 * Refusals
 *     3     there is no such kind
 *     10    kind is POSITION, and number is not -1 to 100
 *     11    out is shorter than the answer
 *
 * Value: the length of the answer: 5 for COUNT, 2 for POSITION, else 1.
 * Afterwards out begins with the answer, and is as it was behind it. Refused: out is as it was.
 */
HANRAQUIN_ANSWER
uint64_t hanraquin_gate_write_answer(uint8_t kind, int32_t number, uint8_t *out, size_t out_len);

/*
 * Reads an answer of a barrier.
 *
 *     data      the data of a gate telegram
 *     number    1 place
 *
 * Refusals
 *     1     number_len is not 1
 *     7     data_len is 0
 *     3     the first byte is not the kind of an answer
 *     7     data is not as long as an answer of this kind is
 *     10    it is a position, and is not -1 to 100
 *
 * Value: the kind, HANRAQUIN_GATE_ACK, NAK, BUSY, SYN, COUNT or POSITION.
 * Afterwards number has the vehicle count or the position, and 0 for the four other kinds. Refused: number is as it was.
 */
HANRAQUIN_ANSWER
uint64_t hanraquin_gate_read_answer(const uint8_t *data, size_t data_len, int32_t *number, size_t number_len);

#ifdef __cplusplus
}
#endif

#endif
