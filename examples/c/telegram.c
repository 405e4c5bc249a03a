/*
 * A telegram at a station or at the centre, bytes on the gate bus, or what comes to the sending end of a cable, from the
 * command line; make station, make reply, make bus and make send run it.
 *
 *     telegram station OWN TELEGRAM    the station with the address OWN and factory registers handles the telegram; or
 *                                      several, with commas between them, each with the registers as the one before left
 *                                      them. Prints what it sends, "not mine" or "refused" and the number, and then
 *                                      every register that changed.
 *     telegram reply TELEGRAM          the centre reads the telegram. Prints the same, or what the reply says.
 *     telegram bus OWN BYTES           a receiver at rest with the address OWN is fed the bytes; or several rows of them,
 *                                      with commas between them, and at each comma the timer runs out. Prints for every
 *                                      byte that gets an answer how many bytes of the row were fed, and the answer; below
 *                                      a telegram what its data is; and at the end of a row where the receiver is. An
 *                                      operating command is carried out, on levels and edges that are 0 at the start.
 *     telegram send PRIORITY CONNECTIONS BLOCKS DATA BYTES
 *                                      a fresh sending half with this priority, low or high, and these two limits is
 *                                      started, to send the data, and then fed the bytes, as in bus. Prints for every
 *                                      event what it sends, and a message that came; and at the end where it is, and how
 *                                      many connections and blocks have failed.
 *
 * OWN, TELEGRAM, BYTES and DATA are bytes in hex, two digits for each and spaces between them; the word none stands for no
 * bytes. CONNECTIONS and BLOCKS are decimal. Anything else is taken for a typo: a message goes to standard error, nothing is
 * judged, and the exit status is 2.
 */
#include <stdio.h>
#include <stdlib.h>
#include <string.h>

#include "hanraquin.h"

/* One byte more than a telegram may have shows that it is too long. */
#define ROOM (HANRAQUIN_TELEGRAM + 1)

/* The numbers of the registers, by their places. */
static const uint16_t numbers[] = {2, 300, 931, 932, 933, 934, 935, 936, 952, 953, 955, 956, 957, 958, 959, 960, 961, 962};
typedef char each_place_has_a_number[sizeof numbers / sizeof numbers[0] == HANRAQUIN_REGISTERS ? 1 : -1];

static void typo(const char *what, const char *word, size_t length)
{
    fprintf(stderr, "%s%.*s\n", what, (int)length, word);
    exit(2);
}

/* The value of a hex digit, and 16 for any other character. */
static unsigned digit(char c)
{
    if (c >= '0' && c <= '9')
        return (unsigned)(c - '0');
    if (c >= 'A' && c <= 'F')
        return (unsigned)(c - 'A') + 10;
    if (c >= 'a' && c <= 'f')
        return (unsigned)(c - 'a') + 10;
    return 16;
}

/*
 * Reads the next byte of a row at *text, in which so many were read before, and moves *text behind it. Gives -1 where the row
 * ends, and leaves *text there, at a comma or at the end.
 */
static int next_byte(const char **text, size_t before)
{
    const char *at = *text + strspn(*text, " \t\n");
    size_t length = strcspn(at, " \t\n,");
    int byte = -1;
    if (before == 0 && length == 4 && strncmp(at, "none", 4) == 0) {
        at += 4 + strspn(at + 4, " \t\n");
        if (*at != ',' && *at != '\0')
            typo("bytes behind none: ", at, strcspn(at, ","));
    } else if (length > 0) {
        if (length != 2 || digit(at[0]) > 15 || digit(at[1]) > 15)
            typo("not a byte in hex, which has two digits: ", at, length);
        byte = (int)(digit(at[0]) << 4 | digit(at[1]));
        at += 2;
    } else if (before == 0) {
        typo("no bytes are given; none stands for no bytes", "", 0);
    }
    *text = at;
    return byte;
}

/* Reads the row at *text, and leaves *text where it ends. Keeps the first ROOM bytes, and gives their number. */
static size_t read_bytes(const char **text, uint8_t *bytes)
{
    size_t count = 0;
    for (int byte; (byte = next_byte(text, count)) >= 0;)
        if (count < ROOM)
            bytes[count++] = (uint8_t)byte;
    return count;
}

/* Reads a text that has to be one row of bytes. */
static size_t read_row(const char *text, uint8_t *bytes)
{
    size_t count = read_bytes(&text, bytes);
    if (*text != '\0')
        typo("one row of bytes is read here, and behind it stands ", text, strlen(text));
    return count;
}

/* Reads a text that has to be an address. */
static uint8_t read_address(const char *text)
{
    uint8_t bytes[ROOM] = {0};
    if (read_row(text, bytes) != 1)
        typo("not one byte, as an address is: ", text, strlen(text));
    return bytes[0];
}

/* Reads a text that has to be a decimal number of up to nine digits. */
static uint64_t read_number(const char *text)
{
    size_t length = strspn(text, "0123456789");
    if (length == 0 || length > 9 || text[length] != '\0')
        typo("not a decimal number of up to nine digits: ", text, strlen(text));
    return strtoul(text, NULL, 10);
}

/* Reads a text that has to be a priority. */
static uint64_t read_priority(const char *text)
{
    if (strcmp(text, "low") != 0 && strcmp(text, "high") != 0)
        typo("not a priority, which is low or high: ", text, strlen(text));
    return strcmp(text, "low") == 0 ? HANRAQUIN_SEND_LOW : HANRAQUIN_SEND_HIGH;
}

/* Reads all rows of a text, so that none is judged beside a typo. */
static void check_rows(const char *text)
{
    uint8_t bytes[ROOM] = {0};
    do
        read_bytes(&text, bytes);
    while (*text++ == ',');
}

static void print_bytes(const uint8_t *bytes, size_t length)
{
    for (size_t i = 0; i < length; i++)
        printf(" %02X", bytes[i]);
}

/* Shows bytes at the end of a line. */
static void show_bytes(const uint8_t *bytes, size_t length)
{
    print_bytes(bytes, length);
    printf("\n");
}

/* Shows an answer that is not "done". */
static void show_other(uint64_t answer)
{
    if (hanraquin_kind(answer) == HANRAQUIN_NOT_MINE)
        printf("not mine\n");
    else
        printf("refused %u\n", hanraquin_kind(answer));
}

/* The station handles one telegram. */
static void handle(uint8_t own, uint16_t *registers, const uint8_t *telegram, size_t length)
{
    uint8_t out[HANRAQUIN_TELEGRAM] = {0};
    uint16_t before[HANRAQUIN_REGISTERS];
    memcpy(before, registers, sizeof before);
    uint64_t answer = hanraquin_station(own, registers, HANRAQUIN_REGISTERS, telegram, length, out, sizeof out);
    if (hanraquin_done(answer)) {
        printf("sent %u:", (unsigned)hanraquin_value(answer));
        show_bytes(out, hanraquin_value(answer));
    } else {
        show_other(answer);
    }
    for (size_t i = 0; i < HANRAQUIN_REGISTERS; i++)
        if (registers[i] != before[i])
            printf("register %u is %u\n", (unsigned)numbers[i], (unsigned)registers[i]);
}

/* The station handles telegrams. */
static void station(const char *own, const char *telegrams)
{
    uint8_t bytes[ROOM] = {0}, address = read_address(own);
    uint16_t registers[HANRAQUIN_REGISTERS] = HANRAQUIN_FACTORY;
    check_rows(telegrams);
    do {
        size_t length = read_bytes(&telegrams, bytes);
        handle(address, registers, bytes, length);
    } while (*telegrams++ == ',');
}

/* The centre reads a telegram. */
static void reply(const char *text)
{
    uint8_t telegram[ROOM] = {0}, route[HANRAQUIN_ROUTE] = {0};
    uint16_t run[HANRAQUIN_RUN] = {0};
    size_t length = read_row(text, telegram);
    uint64_t answer = hanraquin_read_reply(telegram, length, route, HANRAQUIN_ROUTE, run, HANRAQUIN_RUN);
    if (!hanraquin_done(answer)) {
        show_other(answer);
        return;
    }
    printf("accepted: route");
    for (size_t i = 0; i < HANRAQUIN_ROUTE && route[i] != 0; i++)
        printf(" %02X", route[i]);
    printf("; start %u; count %u; values", (unsigned)run[0], (unsigned)run[1]);
    for (unsigned i = 0; i < run[1]; i++)
        printf(" %u", (unsigned)hanraquin_word(telegram + run[2] + 2 * i));
    printf(run[1] == 0 ? " none\n" : "\n");
}

/* Somebody on the gate bus: an address, the receiver, and the levels and edges of a barrier. */
struct member {
    uint8_t own;
    uint64_t state[HANRAQUIN_GATE_STATE];
    uint8_t store[HANRAQUIN_GATE_STORE];
    uint8_t levels[HANRAQUIN_GATE_REGISTERS], edges[HANRAQUIN_GATE_REGISTERS];
};

/* The name of a barrier's answer. */
static const char *answer_name(uint32_t kind)
{
    switch (kind) {
    case HANRAQUIN_GATE_ACK:
        return "ack";
    case HANRAQUIN_GATE_NAK:
        return "nak";
    case HANRAQUIN_GATE_BUSY:
        return "busy";
    case HANRAQUIN_GATE_SYN:
        return "syn";
    case HANRAQUIN_GATE_COUNT:
        return "vehicle count";
    default:
        return "position";
    }
}

/* Shows an answer of a barrier. */
static void show_answer(uint32_t kind, int32_t number)
{
    printf("answer: %s", answer_name(kind));
    if (kind == HANRAQUIN_GATE_POSITION && number == -1)
        printf(" unknown");
    else if (kind == HANRAQUIN_GATE_POSITION || kind == HANRAQUIN_GATE_COUNT)
        printf(" %ld", (long)number);
    printf("\n");
}

/* Shows the name that a byte stands for, and where there is none, the byte. */
static void show_name(const char *const *names, size_t count, uint8_t byte)
{
    if (byte < count)
        printf(" %s", names[byte]);
    else
        printf(" %02X", byte);
}

/* Shows an operating command, what the barrier answers to it, and the two registers of that command, if it has any. */
static void show_command(const struct member *member, const uint8_t *data, uint32_t kind)
{
    static const char *const commands[] = {"BT",      "BA",      "BZ",      "BS",      "relay 1",
                                           "relay 2", "relay 3", "relay 4", "relay 5", "relay 6"};
    static const char *const functions[] = {"pulse", "activate", "deactivate"};
    printf("operating command");
    show_name(commands, sizeof commands / sizeof commands[0], data[1]);
    show_name(functions, sizeof functions / sizeof functions[0], data[2]);
    printf(": %s", answer_name(kind));
    if (data[1] < HANRAQUIN_GATE_REGISTERS)
        printf("; level %u, edge %u", (unsigned)member->levels[data[1]], (unsigned)member->edges[data[1]]);
    printf("\n");
}

/* Carries out the data of a telegram, if it is an operating command, and shows what it is. */
static void take_data(struct member *member, const uint8_t *data, size_t length)
{
    int32_t number = 0;
    uint64_t done = hanraquin_gate_operate(data, length, member->levels, HANRAQUIN_GATE_REGISTERS, member->edges,
                                           HANRAQUIN_GATE_REGISTERS);
    uint64_t read = hanraquin_gate_read_answer(data, length, &number, 1);
    if (hanraquin_done(done))
        show_command(member, data, hanraquin_value(done));
    else if (hanraquin_done(read))
        show_answer(hanraquin_value(read), number);
    else
        printf("other data: refused %u as an operating command, %u as an answer\n", hanraquin_kind(done),
               hanraquin_kind(read));
}

/* Tells the receiver an event, and shows its answer, unless that is nothing; fed is the number of bytes so far. */
static void tell(struct member *member, uint32_t event, size_t fed)
{
    uint8_t data[HANRAQUIN_GATE_DATA_MAX] = {0};
    uint64_t answer = hanraquin_gate_receive(member->own, member->state, HANRAQUIN_GATE_STATE, member->store,
                                             sizeof member->store, event, data, sizeof data);
    uint32_t value = hanraquin_value(answer);
    if (answer == HANRAQUIN_NOTHING)
        return;
    if (event == HANRAQUIN_TIMER)
        printf("timer: ");
    else
        printf("%zu fed: ", fed);
    if (!hanraquin_done(answer)) {
        show_other(answer);
    } else if (value >= HANRAQUIN_GATE_TOKEN) {
        printf("token from %02X\n", (unsigned)(value & 0xFF));
    } else {
        printf("telegram from %02X:", (unsigned)(value >> 8 & 0xFF));
        show_bytes(data, value & 0xFF);
        take_data(member, data, value & 0xFF);
    }
}

/* Shows where the receiver is; in a telegram also for whom it is and how many bytes are to come, once it knows that. */
static void show_place(const uint64_t *state)
{
    uint64_t phase = state[0], left = 0;
    if (phase == HANRAQUIN_GATE_PHASE_DATA)
        left = state[3] - state[4] + 2;
    else if (phase == HANRAQUIN_GATE_PHASE_CHECK)
        left = 1;
    else if (phase == HANRAQUIN_GATE_PHASE_DROPPING)
        left = state[4];
    printf(phase == HANRAQUIN_GATE_PHASE_REST ? "at rest" : "in the middle of a telegram");
    if (phase >= HANRAQUIN_GATE_PHASE_OTHER_SOURCE)
        printf(" for another");
    else if (phase >= HANRAQUIN_GATE_PHASE_SOURCE)
        printf(" for %02X", (unsigned)state[1]);
    if (left > 0)
        printf(", %u to come", (unsigned)left);
    printf("\n");
}

/* A receiver on the gate bus is fed bytes. */
static void bus(const char *own, const char *bytes)
{
    struct member member = {.own = read_address(own)};
    check_rows(bytes);
    for (;;) {
        size_t fed = 0;
        for (int byte; (byte = next_byte(&bytes, fed)) >= 0;)
            tell(&member, (uint32_t)byte, ++fed);
        printf("%zu fed: ", fed);
        show_place(member.state);
        if (*bytes++ != ',')
            break;
        tell(&member, HANRAQUIN_TIMER, fed);
    }
}

/* A sending half, its data, and a buffer for what comes while it has yielded. */
struct sender {
    uint64_t state[HANRAQUIN_SEND_STATE];
    uint8_t data[ROOM], buffer[HANRAQUIN_DATA_MAX];
    size_t length;
};

/* Tells the sending half an event, and shows its answer. */
static void tell_sender(struct sender *sender, uint32_t event)
{
    uint8_t out[HANRAQUIN_FRAME_MAX] = {0};
    uint64_t before = sender->state[0];
    uint64_t answer = hanraquin_send(sender->state, HANRAQUIN_SEND_STATE, event, sender->data, sender->length,
                                     sender->buffer, sizeof sender->buffer, out, sizeof out);
    uint64_t after = sender->state[0];
    if (event == HANRAQUIN_START)
        printf("start: ");
    else if (event == HANRAQUIN_TIMER)
        printf("timer: ");
    else
        printf("fed %02X: ", (unsigned)event);
    if (!hanraquin_done(answer)) {
        show_other(answer);
        return;
    }
    size_t length = hanraquin_send_length(answer), message = hanraquin_send_message_length(answer);
    printf(length == 0 ? "nothing" : "sends");
    print_bytes(out, length);
    if (hanraquin_send_has_message(answer)) {
        printf(message == 0 ? ", message of %zu" : ", message of %zu:", message);
        print_bytes(sender->buffer, message);
    }
    if (before != after && after == HANRAQUIN_SEND_PHASE_RECEIVING)
        printf(", yields");
    else if (before != after && after == HANRAQUIN_SEND_PHASE_SENT)
        printf(", sent");
    else if (before != after && after == HANRAQUIN_SEND_PHASE_GAVE_UP)
        printf(", gave up");
    printf("\n");
}

/* A sending half is started, and fed bytes. */
static void send_data(const char *priority, const char *connections, const char *blocks, const char *data, const char *bytes)
{
    static const char *const phases[] = {"fresh", "opening", "awaiting", "receiving", "sent", "gave up"};
    struct sender sender = {
        .state = HANRAQUIN_SEND_FRESH(read_number(connections), read_number(blocks), read_priority(priority))};
    const uint64_t *state = sender.state;
    sender.length = read_row(data, sender.data);
    check_rows(bytes);
    tell_sender(&sender, HANRAQUIN_START);
    for (;;) {
        size_t fed = 0;
        for (int byte; (byte = next_byte(&bytes, fed)) >= 0; fed++)
            tell_sender(&sender, (uint32_t)byte);
        if (*bytes++ != ',')
            break;
        tell_sender(&sender, HANRAQUIN_TIMER);
    }
    printf("%s, %u of %u connections failed, %u of %u blocks failed\n", phases[state[0]], (unsigned)state[4],
           (unsigned)state[1], (unsigned)state[5], (unsigned)state[2]);
}

int main(int count, char **words)
{
    if (count == 4 && strcmp(words[1], "station") == 0) {
        station(words[2], words[3]);
    } else if (count == 3 && strcmp(words[1], "reply") == 0) {
        reply(words[2]);
    } else if (count == 4 && strcmp(words[1], "bus") == 0) {
        bus(words[2], words[3]);
    } else if (count == 7 && strcmp(words[1], "send") == 0) {
        send_data(words[2], words[3], words[4], words[5], words[6]);
    } else {
        fprintf(stderr, "usage: telegram station OWN TELEGRAM, telegram reply TELEGRAM, telegram bus OWN BYTES, or\n"
                        "telegram send PRIORITY CONNECTIONS BLOCKS DATA BYTES\n");
        return 2;
    }
    return fflush(stdout) == 0 ? 0 : 1;
}
