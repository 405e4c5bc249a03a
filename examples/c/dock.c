/*
 * The night's job for the dock with station 55: its pump is switched on, over the relays 12 and 13.
 *
 *     cc -std=c99 -Iinclude examples/c/dock.c target/staticlib/libhanraquin.a -o dock
 *
 * It prints what is in examples/c/dock.expected, and ends with status 1 if anything is not as it must be.
 */
#include <stdio.h>
#include <stdlib.h>
#include <string.h>

#include "hanraquin.h"

#define STATIONS 3
#define TABLES (STATIONS * HANRAQUIN_REGISTERS)

static const uint8_t route[STATIONS] = {0x12, 0x13, 0x55}; /* the destination last */
static const uint16_t factory[HANRAQUIN_REGISTERS] = HANRAQUIN_FACTORY;
static const uint16_t pump_on = 1, pump_wrong = 4; /* for register 300, which takes 0 to 3 */

/* What the refusals mean, by their numbers. */
static const char *const refusals[] = {
    "",
    "set up wrongly",
    "header cut short",
    "function byte not allowed here",
    "extended count not 2 to 32",
    "block or route breaks its rule",
    "mark disagrees with block",
    "body of the wrong length",
    "no such register",
    "register takes no write",
    "written value out of range",
    "output too short",
    "too long",
};

static void must(int holds, const char *what)
{
    if (!holds) {
        fprintf(stderr, "dock: not so: %s\n", what);
        exit(1);
    }
}

static void show(const char *what, const uint8_t *bytes, size_t length)
{
    printf("%-9s", what);
    for (size_t i = 0; i < length; i++)
        printf(" %02X", bytes[i]);
    printf("\n");
}

/* Frames data for a cable, and feeds STX and the frame to a receiving half. Gives the length of the message. */
static size_t over_cable(const uint8_t *data, size_t length, uint8_t *buffer, size_t buffer_len)
{
    uint8_t frame[HANRAQUIN_FRAME_MAX] = {0};
    uint64_t state[HANRAQUIN_STATE] = {0}; /* at rest */
    uint64_t answer = hanraquin_frame(data, length, frame, sizeof frame);
    must(hanraquin_done(answer), "the data is framed");
    size_t frame_len = hanraquin_value(answer);
    show("frame", frame, frame_len);

    answer = hanraquin_receive(state, HANRAQUIN_STATE, HANRAQUIN_STX, buffer, buffer_len);
    must(answer == HANRAQUIN_SEND + HANRAQUIN_DLE, "STX is answered by DLE");
    for (size_t i = 0; i < frame_len; i++) {
        answer = hanraquin_receive(state, HANRAQUIN_STATE, frame[i], buffer, buffer_len);
        must(hanraquin_done(answer), "the state goes with its buffer");
        must((answer >= HANRAQUIN_MESSAGE) == (i + 1 == frame_len), "the last byte, and no other, ends the message");
    }
    return hanraquin_value(answer) - HANRAQUIN_MESSAGE; /* a real receiver also sends HANRAQUIN_DLE now */
}

/* Hands a telegram to the stations. Gives the length of what one of them sends, which is then in telegram; 0 for nothing. */
static size_t next_hop(uint8_t *telegram, size_t length, uint16_t *tables)
{
    uint8_t out[HANRAQUIN_TELEGRAM] = {0};
    for (size_t i = 0; i < STATIONS; i++) {
        uint16_t *registers = tables + i * HANRAQUIN_REGISTERS;
        uint64_t answer = hanraquin_station(route[i], registers, HANRAQUIN_REGISTERS, telegram, length, out, sizeof out);
        if (hanraquin_kind(answer) == HANRAQUIN_NOT_MINE)
            continue;
        must(hanraquin_done(answer), "no station refuses");
        memcpy(telegram, out, hanraquin_value(answer));
        return hanraquin_value(answer);
    }
    return 0;
}

int main(void)
{
    uint8_t telegram[HANRAQUIN_TELEGRAM] = {0}, heard[HANRAQUIN_TELEGRAM] = {0}, out[HANRAQUIN_TELEGRAM] = {0};
    uint8_t stations[HANRAQUIN_ROUTE] = {0};
    uint16_t tables[TABLES] = {0}, copies[TABLES] = {0}, run[HANRAQUIN_RUN] = {0};
    uint32_t result[HANRAQUIN_RESULT] = {0};
    for (size_t i = 0; i < TABLES; i++)
        tables[i] = copies[i] = factory[i % HANRAQUIN_REGISTERS];

    /* The centre writes 1 to register 300, and reads 958 and 959. */
    uint64_t answer = hanraquin_write_request(route, STATIONS, 958, 2, 300, &pump_on, 1, telegram, sizeof telegram);
    must(hanraquin_done(answer), "the request is written");
    size_t length = hanraquin_value(answer);
    show("request", telegram, length);

    /* It goes over a cable to the radio. */
    must(over_cable(telegram, length, heard, sizeof heard) == length, "the message is as long as the data");
    must(memcmp(heard, telegram, length) == 0, "the message is the data");

    /* A dry run with copies of the tables, before anything is sent. */
    answer = hanraquin_dry_run(telegram, length, route, STATIONS, copies, TABLES, out, sizeof out,
                               result, HANRAQUIN_RESULT);
    must(hanraquin_done(answer), "the dry run is played");
    must(result[1] == HANRAQUIN_AT_ZERO, "the reply reaches the centre");
    printf("dry run   %u transmissions\n", (unsigned)result[0]);

    /* The stations themselves, which do what the dry run said. */
    uint32_t count = 1;
    for (size_t sent; (sent = next_hop(heard, length, tables)) != 0; count++) {
        length = sent;
        show("sent", heard, length);
    }
    must(count == result[0], "there are as many transmissions as in the dry run");
    must(length == result[2] && memcmp(heard, out, length) == 0, "the last telegram is that of the dry run");
    must(memcmp(tables, copies, sizeof tables) == 0, "the tables are those of the dry run");

    /* The centre reads the reply. */
    answer = hanraquin_read_reply(heard, length, stations, HANRAQUIN_ROUTE, run, HANRAQUIN_RUN);
    must(hanraquin_done(answer), "the reply is accepted");
    must(memcmp(stations, route, sizeof route) == 0, "the route is the one asked for");
    for (unsigned i = 0; i < run[1]; i++)
        printf("reply     register %u is %u\n", run[0] + i, (unsigned)hanraquin_word(heard + run[2] + 2 * i));

    /* The destination refuses a value that the register does not take, and keeps what it has. */
    uint16_t *dock = tables + (STATIONS - 1) * HANRAQUIN_REGISTERS;
    answer = hanraquin_write_request(&route[STATIONS - 1], 1, 0, 0, 300, &pump_wrong, 1, telegram, sizeof telegram);
    must(hanraquin_done(answer), "the writer does not judge values");
    answer = hanraquin_station(0x55, dock, HANRAQUIN_REGISTERS, telegram, hanraquin_value(answer), out, sizeof out);
    must(hanraquin_kind(answer) == HANRAQUIN_REFUSED_VALUE_RANGE, "the station refuses 4");
    printf("refused   %u, %s\n", hanraquin_kind(answer), refusals[hanraquin_kind(answer)]);
    must(dock[1] == pump_on, "the pump stays on");
    printf("pump      %u\n", (unsigned)dock[1]);
    return fflush(stdout) == 0 ? 0 : 1;
}
