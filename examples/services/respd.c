/* A server that speaks Redis's protocol (RESP2), for redis-cli and the Redis clients of any language.
 *
 *     cc -O2 -I ../../out/boddurci respd.c ../../out/boddurci/libboddurci.a -lpthread -o respd
 *     ./respd BASE 6380              listens on this port of 127.0.0.1; put --wide before BASE for wide pages
 *     redis-cli -p 6380 incr hits
 *
 * The commands are GET, SET (with or without NX), SETNX, DEL, EXISTS, INCR, INCRBY, DBSIZE, KEYS PREFIX*, PING, ECHO, QUIT and RUN. The
 * commands that clients send when they connect (COMMAND, CONFIG GET, CLIENT, HELLO, SELECT 0) have answers too. One thread serves all
 * clients, in rounds. A round executes the commands that have arrived, saves once, and then sends the answers. So a kill of the service
 * loses no answered change. If a save fails, the service ends and sends no answer of that round. SIGTERM or SIGINT ends it after a round.
 *
 * Numbers are decimal text, as in Redis, so GET and SET work on the numbers of INCR. RUN runs a stock program of docs/PROGRAMS.md at the
 * time of day in seconds, and answers the code and the reply word. Records of programs are binary: use a key either with RUN or with the
 * other commands. `RUN lease door 7 30` passes 7 and 30 as 8 bytes each. A single word after the key is the argument, byte for byte.
 *
 * Every local user can change the base. If untrusted users choose keys, hash the keys with a secret first, as limiter.py does. */
#define _GNU_SOURCE
#include <arpa/inet.h>
#include <boddurci_files.h>
#include <errno.h>
#include <netinet/tcp.h>
#include <poll.h>
#include <signal.h>
#include <stdarg.h>
#include <stdio.h>
#include <stdlib.h>
#include <string.h>
#include <strings.h>
#include <sys/socket.h>
#include <time.h>
#include <unistd.h>

/* A command has at most MOST bytes and fewer than WORDS words. A client with MOST bytes of unsent answers waits until they are sent. */
enum { CLIENTS = 1000, MOST = 1 << 20, WORDS = 1024, LINE = 65536 };

struct bytes {
    uint8_t *at;
    size_t length, room;
};

/* A word of a command. The last word is followed by a word whose `at` is NULL. */
struct word {
    const uint8_t *at;
    size_t length;
};

/* `in` has the received bytes that are not executed yet, and `out` the answers that are not sent yet. */
struct client {
    int socket;
    int ends;  /* close it after its commands are executed and its answers are sent */
    int waits; /* `in` may have another command */
    struct bytes in, out;
};

static const struct stock {
    const char *name;
    size_t record;
} stocks[] = {{"counter", 8}, {"bounded_add", 8},   {"bounded_counter", 8}, {"compare_and_set", 8}, {"sequence", 24},
              {"lease", 16},  {"fenced_lease", 24}, {"rate_limit", 16},     {"semaphore", 8},       {"token_bucket", 8}, {NULL, 0}};

static boddurci_base *base;
static boddurci *db;
static int is_wide, is_changed, is_full;
static struct client clients[CLIENTS];
static size_t client_count;
static uint8_t value[BODDURCI_VALUE_MOST], key[BODDURCI_VALUE_MOST];
static volatile sig_atomic_t is_over;

/* Ends the service. The changes of all sent answers are saved already. */
static void end_by(const char *what, const char *why)
{
    fprintf(stderr, "respd: %s: %s\n", what, why);
    exit(1);
}

static void append(struct bytes *buffer, const void *bytes, size_t length)
{
    if (buffer->length + length > buffer->room) {
        buffer->room = 2 * (buffer->length + length);
        buffer->at = realloc(buffer->at, buffer->room);
        if (buffer->at == NULL)
            end_by("a buffer", "out of memory");
    }
    if (length != 0)
        memcpy(buffer->at + buffer->length, bytes, length);
    buffer->length += length;
}

/* Removes the first bytes of a buffer. An empty buffer has no memory. */
static void drop(struct bytes *buffer, size_t length)
{
    buffer->length -= length;
    if (buffer->length != 0) {
        memmove(buffer->at, buffer->at + length, buffer->length);
    } else {
        free(buffer->at);
        *buffer = (struct bytes){NULL, 0, 0};
    }
}

static void __attribute__((format(printf, 2, 3))) answer(struct bytes *out, const char *format, ...)
{
    char line[512];
    va_list words;
    va_start(words, format);
    int length = vsnprintf(line, sizeof line, format, words);
    va_end(words);
    append(out, line, (size_t)length < sizeof line ? (size_t)length : sizeof line - 1);
}

static void answer_bulk(struct bytes *out, const void *bytes, size_t length)
{
    answer(out, "$%zu\r\n", length);
    append(out, bytes, length);
    append(out, "\r\n", 2);
}

static void answer_fault(struct bytes *out, uint32_t status)
{
    if (status == BODDURCI_PAIR_TOO_LARGE)
        answer(out, "-ERR a key and its value have at most %d bytes together\r\n", BODDURCI_PAIR_MOST(is_wide));
    else
        answer(out, "-ERR %s\r\n", status == BODDURCI_BAD_TEXT ? "value is not an integer or out of range" : boddurci_text(status));
}

static int is_text(struct word word, const char *text)
{
    return word.length == strlen(text) && strncasecmp((const char *)word.at, text, word.length) == 0;
}

/* Reads a decimal number of 64 bits, without a plus, spaces or leading zeros. A negative number is in two's complement. Returns 0 if the
 * number is invalid. */
static int number_of(struct word word, int is_signed, uint64_t *number)
{
    char text[24] = "", again[24];
    if (word.length == 0 || word.length >= sizeof text)
        return 0;
    memcpy(text, word.at, word.length);
    is_signed |= text[0] == '-';
    *number = is_signed ? (uint64_t)strtoll(text, NULL, 10) : strtoull(text, NULL, 10);
    snprintf(again, sizeof again, is_signed ? "%lld" : "%llu", (unsigned long long)*number);
    return word.length == strlen(again) && memcmp(text, again, word.length) == 0;
}

/* ---- commands */

static void get(struct bytes *out, const struct word *words)
{
    size_t length;
    if (boddurci_fetch(db, words[1].at, words[1].length, value, sizeof value, &length) == BODDURCI_DONE)
        answer_bulk(out, value, length);
    else
        answer(out, "$-1\r\n");
}

static uint32_t store(struct word name, const void *bytes, size_t length, uint32_t replaces)
{
    uint32_t status = boddurci_store(db, name.at, name.length, bytes, length, replaces);
    is_changed |= status == BODDURCI_DONE;
    return status;
}

/* Executes SET and SETNX. A fourth word must be NX. */
static void set(struct bytes *out, const struct word *words)
{
    int is_setnx = is_text(words[0], "SETNX"), if_new = is_setnx || words[3].at != NULL;
    uint32_t status;
    if (words[3].at != NULL && !is_text(words[3], "NX")) {
        answer(out, "-ERR syntax error: SET takes a key, a value, and NX or nothing\r\n");
        return;
    }
    status = store(words[1], words[2].at, words[2].length, !if_new);
    if (status == BODDURCI_DONE || status == BODDURCI_EXISTS)
        answer(out, "%s\r\n", status == BODDURCI_DONE ? (is_setnx ? ":1" : "+OK") : is_setnx ? ":0" : "$-1");
    else
        answer_fault(out, status);
}

static void count_keys(struct bytes *out, const struct word *words)
{
    size_t length, is_del = is_text(words[0], "DEL"), found = 0;
    for (const struct word *word = words + 1; word->at != NULL; word++)
        found += (is_del ? boddurci_delete(db, word->at, word->length)
                         : boddurci_fetch(db, word->at, word->length, value, sizeof value, &length)) == BODDURCI_DONE;
    is_changed |= is_del && found != 0;
    answer(out, ":%zu\r\n", found);
}

static void incr(struct bytes *out, const struct word *words)
{
    char text[24];
    size_t length;
    uint64_t amount = 1, old = 0;
    long long new;
    uint32_t status = boddurci_fetch(db, words[1].at, words[1].length, value, sizeof value, &length);
    if ((words[2].at != NULL && !number_of(words[2], 1, &amount)) ||
        (status == BODDURCI_DONE && !number_of((struct word){value, length}, 1, &old)) ||
        __builtin_add_overflow((long long)old, (long long)amount, &new))
        status = BODDURCI_BAD_TEXT;
    else
        status = store(words[1], text, (size_t)snprintf(text, sizeof text, "%lld", new), 1);
    if (status == BODDURCI_DONE)
        answer(out, ":%s\r\n", text);
    else
        answer_fault(out, status);
}

static void dbsize(struct bytes *out, const struct word *words)
{
    size_t count = 0;
    (void)words;
    boddurci_count(db, &count);
    answer(out, ":%zu\r\n", count);
}

/* Lists the keys with a prefix. All clients wait, since it visits all pairs. */
static void keys(struct bytes *out, const struct word *words)
{
    struct bytes found = {NULL, 0, 0};
    boddurci_cursor cursor;
    size_t star = 0, count = 0, key_length, length;
    while (star < words[1].length && memchr("*?[\\", words[1].at[star], 4) == NULL)
        star++;
    if (star + 1 != words[1].length || words[1].at[star] != '*') {
        answer(out, "-ERR KEYS takes a prefix and a star, as in KEYS page:*\r\n");
        return;
    }
    for (boddurci_first(db, &cursor); boddurci_next(db, &cursor, key, sizeof key, &key_length, value, sizeof value, &length) == 0;)
        if (key_length >= star && memcmp(key, words[1].at, star) == 0) {
            answer_bulk(&found, key, key_length);
            count++;
        }
    answer(out, "*%zu\r\n", count);
    append(out, found.at, found.length);
    free(found.at);
}

static void run(struct bytes *out, const struct word *words)
{
    static uint8_t numbers[8 * WORDS];
    const struct stock *stock = stocks;
    struct word argument = {numbers, 0};
    uint32_t program = 0, status;
    uint64_t end = 0, reply = 0;
    char text[24];
    while (stock->name != NULL && !is_text(words[1], stock->name))
        stock++;
    status = stock->name != NULL ? boddurci_stock(db, stock->name, &program) : BODDURCI_NO_STOCK;
    for (const struct word *word = words + 3; word->at != NULL && status == BODDURCI_DONE; word++, argument.length += 8) {
        if (!number_of(*word, 0, &reply) && words[4].at != NULL)
            status = BODDURCI_BAD_TEXT;
        memcpy(numbers + argument.length, &reply, 8);
    }
    if (words[3].at != NULL && words[4].at == NULL)
        argument = words[3];
    if (status == BODDURCI_DONE)
        status = boddurci_run(db, program, words[2].at, words[2].length, argument.at, argument.length, 1, stock->record,
                              (uint64_t)time(NULL), &end, &reply);
    is_changed |= status == BODDURCI_DONE && end != 0;
    if (status == BODDURCI_DONE)
        answer(out, "*2\r\n:%d\r\n$%d\r\n%s\r\n", (int)end, snprintf(text, sizeof text, "%llu", (unsigned long long)reply), text);
    else
        answer_fault(out, status);
}

static void echo(struct bytes *out, const struct word *words)
{
    answer_bulk(out, words[1].at, words[1].length);
}

static void config(struct bytes *out, const struct word *words)
{
    int is_log = is_text(words[2], "appendonly"), is_save = is_text(words[2], "save");
    answer(out, "%s\r\n", is_log ? "*2\r\n$10\r\nappendonly\r\n$3\r\nyes" : is_save ? "*2\r\n$4\r\nsave\r\n$0\r\n" : "*0");
}

/* The commands, with the least and the greatest number of words. An entry applies if `second` is NULL or equals the second word. If
 * `execute` is NULL, the answer is `text`. */
static const struct command {
    const char *name;
    size_t least, most;
    void (*execute)(struct bytes *out, const struct word *words);
    const char *second, *text;
} commands[] = {
    {"GET", 2, 2, get, 0, 0}, {"SET", 3, 4, set, 0, 0}, {"SETNX", 3, 3, set, 0, 0}, {"INCR", 2, 2, incr, 0, 0},
    {"INCRBY", 3, 3, incr, 0, 0}, {"DEL", 2, WORDS, count_keys, 0, 0}, {"EXISTS", 2, WORDS, count_keys, 0, 0},
    {"DBSIZE", 1, 1, dbsize, 0, 0}, {"KEYS", 2, 2, keys, 0, 0}, {"RUN", 3, WORDS, run, 0, 0}, {"ECHO", 2, 2, echo, 0, 0},
    {"CONFIG", 3, 3, config, 0, 0}, {"PING", 1, 1, 0, 0, "+PONG"}, {"QUIT", 1, WORDS, 0, 0, "+OK"}, {"COMMAND", 1, WORDS, 0, 0, "*0"},
    {"CLIENT", 2, WORDS, 0, 0, "+OK"}, {"SELECT", 2, 2, 0, "0", "+OK"}, {"SELECT", 2, 2, 0, 0, "-ERR DB index is out of range"},
    {"HELLO", 2, WORDS, 0, "3", "-NOPROTO the protocol is RESP2"},
    {"HELLO", 1, WORDS, 0, 0, "*4\r\n$6\r\nserver\r\n$5\r\nrespd\r\n$5\r\nproto\r\n:2"}, {0, 0, WORDS, 0, 0, "-ERR unknown command"}};

static void execute(struct bytes *out, const struct word *words, size_t count)
{
    const struct command *it = commands;
    while (it->name != NULL && !(is_text(words[0], it->name) && (it->second == NULL || is_text(words[1], it->second))))
        it++;
    if (count < it->least || count > it->most)
        answer(out, "-ERR wrong number of arguments for '%s' command\r\n", it->name);
    else if (it->execute != NULL)
        it->execute(out, words);
    else
        answer(out, "%s\r\n", it->text);
}

/* ---- the protocol and the clients */

/* Received bytes, and a fault in them or NULL. */
struct request {
    const uint8_t *at, *end;
    const char *fault;
};

/* Reads a line with a number, such as `$3`. Returns 0 if the line has not arrived or is invalid. */
static int read_number(struct request *request, uint8_t kind, uint64_t most, const char *fault, uint64_t *number)
{
    const uint8_t *at = request->at, *line = at < request->end ? memchr(at, '\n', (size_t)(request->end - at)) : NULL;
    if (line == NULL && request->end - at < 32)
        return 0;
    if (line == NULL || line - at < 3 || *at != kind || line[-1] != '\r' ||
        !number_of((struct word){at + 1, (size_t)(line - at) - 2}, 0, number) || *number > most) {
        request->fault = fault;
        return 0;
    }
    request->at = line + 1;
    return 1;
}

/* Reads an inline command, which is a line of words. */
static int read_line(struct request *request, struct word *words, size_t *count)
{
    const uint8_t *at = request->at, *line = memchr(at, '\n', (size_t)(request->end - at));
    if (line == NULL || line - at > LINE) {
        request->fault = request->end - at > LINE ? "too big inline request" : NULL;
        return 0;
    }
    for (request->at = line + 1; at < line && *count < WORDS - 1; at++) {
        const uint8_t *from = at;
        while (at < line && *at != ' ' && *at != '\t' && *at != '\r')
            at++;
        if (at > from)
            words[(*count)++] = (struct word){from, (size_t)(at - from)};
    }
    /* A web page could make the browser send an HTTP request to this port, with commands in its body. */
    if (*count != 0 && (is_text(words[0], "POST") || is_text(words[0], "Host:")))
        request->fault = "this is HTTP";
    return request->fault == NULL;
}

/* Reads a command. Returns 0 if the command has not arrived or is invalid. */
static int read_request(struct request *request, struct word *words, size_t *count)
{
    uint64_t number = 0, length = 0;
    *count = 0;
    if (*request->at != '*')
        return read_line(request, words, count);
    if (!read_number(request, '*', WORDS - 1, "invalid multibulk length", &number))
        return 0;
    for (; *count < number; ++*count) {
        if (!read_number(request, '$', MOST, "invalid bulk length", &length) || (size_t)(request->end - request->at) < length + 2)
            return 0;
        words[*count] = (struct word){request->at, length};
        request->at += length + 2;
    }
    return 1;
}

/* Executes the commands of a client that have arrived. */
static void serve(struct client *client)
{
    static struct word words[WORDS];
    struct request request = {client->in.at, client->in.at + client->in.length, NULL};
    const uint8_t *done = request.at;
    size_t count;
    int quits = 0;
    while (!quits && client->out.length < MOST && request.at < request.end && read_request(&request, words, &count)) {
        done = request.at;
        words[count] = (struct word){NULL, 0};
        if (count != 0)
            execute(&client->out, words, count);
        quits = is_text(words[0], "QUIT");
    }
    if (request.fault == NULL && client->out.length < MOST && request.end - done > MOST)
        request.fault = "too big a command";
    if (request.fault != NULL)
        answer(&client->out, "-ERR Protocol error: %s\r\n", request.fault);
    if (request.fault != NULL || quits) {
        client->ends = 1;
        done = request.end;
    }
    client->waits = client->out.length >= MOST && done < request.end;
    drop(&client->in, (size_t)(done - client->in.at));
}

static void receive(struct client *client)
{
    static uint8_t piece[16384];
    ssize_t length = recv(client->socket, piece, sizeof piece, 0);
    if (length > 0)
        append(&client->in, piece, (size_t)length);
    else if (length == 0 || (errno != EAGAIN && errno != EINTR))
        client->ends = 1;
}

/* Sends as many bytes of a client's answers as the socket accepts. Returns 0 if it closes the client. */
static int send_answers(struct client *client)
{
    ssize_t length = client->out.length == 0 ? 0 : send(client->socket, client->out.at, client->out.length, MSG_NOSIGNAL);
    int is_lost = length < 0 && errno != EAGAIN && errno != EINTR;
    if (length > 0)
        drop(&client->out, (size_t)length);
    if (!is_lost && (!client->ends || client->waits || client->out.length != 0))
        return 1;
    close(client->socket);
    drop(&client->in, client->in.length);
    drop(&client->out, client->out.length);
    is_full = 0;
    return 0;
}

static void accept_clients(int listener)
{
    int on = 1, socket = -1;
    while (client_count < CLIENTS && (socket = accept4(listener, NULL, NULL, SOCK_NONBLOCK | SOCK_CLOEXEC)) >= 0) {
        setsockopt(socket, IPPROTO_TCP, TCP_NODELAY, &on, sizeof on);
        clients[client_count++] = (struct client){.socket = socket};
    }
    is_full = client_count == CLIENTS || (client_count != 0 && (errno == EMFILE || errno == ENFILE));
}

/* Waits for commands, executes them, saves, and sends the answers. */
static void serve_round(int listener, const sigset_t *signals)
{
    static struct pollfd polled[CLIENTS + 1];
    static const struct timespec none;
    boddurci_fault fault;
    size_t count = client_count;
    int is_waiting = 0;
    for (size_t at = 0; at < count; at++) {
        const struct client *it = &clients[at];
        polled[at] = (struct pollfd){it->socket, it->out.length != 0 ? POLLOUT : it->ends || it->waits ? 0 : POLLIN, 0};
        is_waiting |= it->waits && it->out.length == 0;
    }
    polled[count] = (struct pollfd){is_full ? -1 : listener, POLLIN, 0};
    if (ppoll(polled, count + 1, is_waiting ? &none : NULL, signals) < 0)
        return;
    db = boddurci_take(base);
    for (size_t at = 0; at < count; at++) {
        if (polled[at].events == POLLIN && polled[at].revents != 0)
            receive(&clients[at]);
        if (polled[at].events == POLLIN ? polled[at].revents != 0 : clients[at].waits && clients[at].out.length == 0)
            serve(&clients[at]);
    }
    boddurci_give(base);
    if (is_changed && boddurci_save(base, &fault) != BODDURCI_DONE)
        end_by("the last changes are neither saved nor answered", fault.text);
    is_changed = 0;
    for (size_t at = count; at-- > 0;)
        if (!send_answers(&clients[at]))
            clients[at] = clients[--client_count];
    if (polled[count].revents != 0)
        accept_clients(listener);
}

static int listen_at(const char *port)
{
    struct sockaddr_in here = {.sin_family = AF_INET, .sin_addr.s_addr = htonl(INADDR_LOOPBACK), .sin_port = htons((uint16_t)atoi(port))};
    int listener = socket(AF_INET, SOCK_STREAM | SOCK_NONBLOCK | SOCK_CLOEXEC, 0), on = 1;
    setsockopt(listener, SOL_SOCKET, SO_REUSEADDR, &on, sizeof on);
    if (atoi(port) < 1 || atoi(port) > 65535 || bind(listener, (struct sockaddr *)&here, sizeof here) != 0 || listen(listener, 511) != 0)
        end_by(port, "cannot listen on this port of 127.0.0.1");
    return listener;
}

static void end_round(int number)
{
    is_over = number;
}

int main(int count, char **words)
{
    sigset_t all, before;
    boddurci_fault fault;
    is_wide = count == 4 && strcmp(words[1], "--wide") == 0;
    if (count != 3 + is_wide)
        end_by("usage", "respd [--wide] BASE PORT");
    sigfillset(&all);
    sigprocmask(SIG_BLOCK, &all, &before);
    signal(SIGTERM, end_round);
    signal(SIGINT, end_round);
    base = boddurci_open_files_within(words[1 + is_wide], is_wide ? BODDURCI_WIDE : 0, 5000, &fault);
    if (base == NULL)
        end_by(words[1 + is_wide], fault.text);
    int listener = listen_at(words[2 + is_wide]);
    while (!is_over)
        serve_round(listener, &before);
    boddurci_close_files(base);
    return 0;
}
