/*
 * Barrier 10 on the gate bus: master 00 has it opened, and asks it for its position.
 *
 *     cc -std=c99 -Iinclude examples/c/barrier.c target/staticlib/libhanraquin.a -o barrier
 *
 * It prints what is in examples/c/barrier.expected, and ends with status 1 if anything is not as it must be.
 */
#include <stdio.h>
#include <stdlib.h>
#include <string.h>

#include "hanraquin.h"

#define MASTER 0x00
#define BARRIER 0x10
#define OTHER 0x11 /* another barrier */

/* Somebody on the bus: an address, the receiver, and the data of the last telegram that came. */
struct member {
    uint8_t own;
    uint64_t state[HANRAQUIN_GATE_STATE];
    uint8_t store[HANRAQUIN_GATE_STORE];
    uint8_t data[HANRAQUIN_GATE_DATA_MAX];
};

static struct member master = {.own = MASTER}, barrier = {.own = BARRIER}; /* at rest */

/* The query for the position. The library makes no queries; this is data like any other. */
static const uint8_t query[] = {0x02, 0x18, 0x00};

static void must(int holds, const char *what)
{
    if (!holds) {
        fprintf(stderr, "barrier: not so: %s\n", what);
        exit(1);
    }
}

static void show(const char *what, const uint8_t *bytes, size_t length)
{
    printf("%-9s", what);
    for (size_t i = 0; i < length; i++)
        printf(" %02X", bytes[i]);
    printf("\n");
}

/* Puts data into a telegram. Gives its length. */
static size_t write_telegram(uint8_t destination, uint8_t source, const uint8_t *data, size_t length, uint8_t *telegram)
{
    uint64_t answer = hanraquin_gate_write(destination, source, data, length, telegram, HANRAQUIN_GATE_TELEGRAM_MAX);
    must(hanraquin_done(answer), "the telegram is written");
    return hanraquin_value(answer);
}

/* Feeds a telegram to a receiver. Gives what it answers to the last byte; to all others it answers nothing. */
static uint64_t hear(struct member *member, const uint8_t *telegram, size_t length)
{
    uint64_t answer = HANRAQUIN_NOTHING;
    for (size_t i = 0; i < length; i++) {
        must(answer == HANRAQUIN_NOTHING, "the last byte, and no other, ends the telegram");
        answer = hanraquin_gate_receive(member->own, member->state, HANRAQUIN_GATE_STATE, member->store,
                                        sizeof member->store, telegram[i], member->data, sizeof member->data);
    }
    must(member->state[0] == HANRAQUIN_GATE_PHASE_REST, "the receiver is at rest again");
    return answer;
}

/* Sends data in a telegram. Gives the number of bytes that came, which are then in to->data. */
static size_t over_bus(const struct member *from, struct member *to, const uint8_t *data, size_t length)
{
    uint8_t telegram[HANRAQUIN_GATE_TELEGRAM_MAX] = {0};
    size_t telegram_len = write_telegram(to->own, from->own, data, length, telegram);
    show("sent", telegram, telegram_len);
    uint64_t answer = hear(to, telegram, telegram_len);
    must(answer == HANRAQUIN_GATE_TELEGRAM + 256u * from->own + length, "all data comes, and who sent it");
    return hanraquin_value(answer) & 0xFF;
}

/* The barrier answers, and the master reads that. Gives the number of the answer. */
static int32_t reply(uint8_t kind, int32_t number)
{
    uint8_t data[HANRAQUIN_GATE_ANSWER_MAX] = {0};
    int32_t read = 0;
    uint64_t answer = hanraquin_gate_write_answer(kind, number, data, sizeof data);
    must(hanraquin_done(answer), "the answer is written");
    size_t length = over_bus(&barrier, &master, data, hanraquin_value(answer));
    answer = hanraquin_gate_read_answer(master.data, length, &read, 1);
    must(answer == kind && read == number, "the answer reads as it was written");
    return read;
}

/* The master asks for the position, and the barrier answers it; -1 is unknown. */
static void ask(int32_t position)
{
    size_t length = over_bus(&master, &barrier, query, sizeof query);
    must(length == sizeof query && memcmp(barrier.data, query, length) == 0, "it is the query for the position");
    int32_t read = reply(HANRAQUIN_GATE_POSITION, position);
    if (read == -1)
        printf("position  unknown\n");
    else
        printf("position  %d\n", (int)read);
}

int main(void)
{
    uint8_t command[HANRAQUIN_GATE_COMMAND_LENGTH] = {0}, telegram[HANRAQUIN_GATE_TELEGRAM_MAX] = {0};
    uint8_t levels[HANRAQUIN_GATE_REGISTERS] = {0}, edges[HANRAQUIN_GATE_REGISTERS] = {0};

    /* A barrier that was just switched on does not know its position. */
    ask(-1);

    /* The master has it opened and kept open: BA, activate. */
    uint64_t answer = hanraquin_gate_write_command(HANRAQUIN_GATE_BA, HANRAQUIN_GATE_ACTIVATE, command, sizeof command);
    must(hanraquin_done(answer), "the command is written");
    show("command", command, sizeof command);
    size_t length = over_bus(&master, &barrier, command, sizeof command);

    /* The barrier carries it out, takes the edge back when it has acted on it, and answers. */
    answer = hanraquin_gate_operate(barrier.data, length, levels, sizeof levels, edges, sizeof edges);
    must(answer == HANRAQUIN_GATE_ACK, "the command is carried out");
    printf("BA        level %u, edge %u\n", (unsigned)levels[HANRAQUIN_GATE_BA], (unsigned)edges[HANRAQUIN_GATE_BA]);
    edges[HANRAQUIN_GATE_BA] = 0;
    reply((uint8_t)hanraquin_value(answer), 0);
    printf("answer    ack\n");

    /* A telegram for another barrier passes by. */
    length = write_telegram(OTHER, MASTER, command, sizeof command, telegram);
    show("passing", telegram, length);
    must(hear(&barrier, telegram, length) == HANRAQUIN_NOTHING, "the barrier drops it");

    /* Meanwhile barrier 10 is open. */
    ask(100);

    /* A telegram that is damaged on its way is not carried out. */
    length = write_telegram(BARRIER, MASTER, command, sizeof command, telegram);
    telegram[6] ^= 0x03; /* deactivate in place of activate */
    show("damaged", telegram, length);
    answer = hear(&barrier, telegram, length);
    must(hanraquin_kind(answer) == HANRAQUIN_REFUSED_CHECK, "the barrier refuses it");
    printf("refused   %u, wrong check\n", hanraquin_kind(answer));
    printf("BA        level %u, edge %u\n", (unsigned)levels[HANRAQUIN_GATE_BA], (unsigned)edges[HANRAQUIN_GATE_BA]);
    return fflush(stdout) == 0 ? 0 : 1;
}
