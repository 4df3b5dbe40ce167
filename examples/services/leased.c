/* A lease service: a client takes a name for some time, and gets a number that is greater for each new owner. A guarded resource recognizes
 * a late request of an earlier owner by its lower number.
 *
 *     cc -O2 -I ../../out/boddurci leased.c ../../out/boddurci/libboddurci.a -lpthread -o leased
 *     ./leased BASE SOCKET ../c/owned_lease.bin
 *
 * The lines on the Unix socket are `take NAME OWNER MILLISECONDS`, `renew NAME OWNER MILLISECONDS` and `give NAME OWNER`, and the answers
 * are `yes NUMBER` and `no`. A name has up to 256 bytes, an owner up to 16, and neither has spaces. A `yes` is sent after its lease is
 * saved, so the lease survives a kill and a restart of the service. SIGTERM or SIGINT ends the service. Each client has a separate thread,
 * so clients that stay connected do not block others. Threads that save at the same time share a save.
 *
 * The names are the keys. If untrusted users choose names, hash the names with a secret first, as limiter.py does. */
#define _POSIX_C_SOURCE 200809L
#include <boddurci_files.h>
#include <pthread.h>
#include <signal.h>
#include <stdio.h>
#include <stdlib.h>
#include <string.h>
#include <sys/socket.h>
#include <sys/un.h>
#include <time.h>
#include <unistd.h>

enum { STACK = 1 << 20, RECORD = 40, OWNER = 16, NAME = 256 };
enum { TAKE, RENEW, GIVE, NONE };

/* The argument of examples/c/owned_lease.c. Its numbers have the lowest byte first, as on the processor. */
struct request {
    uint8_t owner[OWNER];
    uint64_t duration, operation;
};

static boddurci_base *base;
static uint32_t lease;
static int listener;

/* Ends the service. Each lease that was answered `yes` is saved already. */
static void end_by(const char *what, const char *why)
{
    fprintf(stderr, "leased: %s: %s\n", what, why);
    exit(1);
}

static uint64_t now(void)
{
    struct timespec time;
    clock_gettime(CLOCK_REALTIME, &time);
    return (uint64_t)time.tv_sec * 1000 + (uint64_t)time.tv_nsec / 1000000;
}

static uint64_t operation_of(const char *word)
{
    static const char *const words[] = {"take", "renew", "give"};
    uint64_t at = 0;
    while (at < NONE && strcmp(word, words[at]) != 0)
        at++;
    return at;
}

/* Runs the program on the lease of a name, and saves the change. */
static int is_granted(const char *name, const struct request *request, uint64_t *number)
{
    uint64_t end = 0;
    boddurci_fault fault;
    boddurci *db = boddurci_take(base);
    uint32_t status = boddurci_run(db, lease, (const uint8_t *)name, strlen(name), (const uint8_t *)request, sizeof *request,
                                   request->operation == TAKE, RECORD, now(), &end, number);
    boddurci_give(base);
    if (status != BODDURCI_DONE && status != BODDURCI_MISSING)
        end_by(name, boddurci_text(status));
    if (status != BODDURCI_DONE || end != 1)
        return 0;
    if (boddurci_save(base, &fault) != BODDURCI_DONE)
        end_by("the lease is not saved", fault.text);
    return 1;
}

static void answer(const char *line, FILE *peer)
{
    char word[8] = "", name[NAME + 2], owner[OWNER + 2], rest[2];
    unsigned long long milliseconds = 0;
    int words = sscanf(line, "%7s %257s %17s %llu %1s", word, name, owner, &milliseconds, rest);
    struct request request = {{0}, milliseconds, operation_of(word)};
    uint64_t number = 0;
    if (request.operation == NONE || words != (request.operation == GIVE ? 3 : 4) || strlen(name) > NAME || strlen(owner) > OWNER) {
        fprintf(peer, "fault: take or renew NAME OWNER MILLISECONDS, or give NAME OWNER\n");
    } else {
        memcpy(request.owner, owner, strlen(owner));
        if (is_granted(name, &request, &number))
            fprintf(peer, "yes %llu\n", (unsigned long long)number);
        else
            fprintf(peer, "no\n");
    }
    fflush(peer);
}

/* The thread of a client. It ends at a line that is too long or has no LF. */
static void *serve(void *argument)
{
    char line[512];
    int peer = *(int *)argument;
    FILE *in = fdopen(peer, "r"), *out = in == NULL ? NULL : fdopen(dup(peer), "w");
    free(argument);
    while (out != NULL && fgets(line, sizeof line, in) != NULL && strchr(line, '\n') != NULL)
        answer(line, out);
    if (out != NULL)
        fclose(out);
    if (in != NULL)
        fclose(in);
    else
        close(peer);
    return NULL;
}

/* Starts the thread of a client, or closes the connection if the thread cannot be created. */
static void serve_apart(int peer, const pthread_attr_t *detached)
{
    pthread_t thread;
    int *argument = malloc(sizeof *argument);
    if (argument != NULL) {
        *argument = peer;
        if (pthread_create(&thread, detached, serve, argument) == 0)
            return;
    }
    free(argument);
    close(peer);
}

/* The thread that accepts clients. If `accept` fails, for example because no descriptor is free, it tries again 10 milliseconds later. */
static void *accept_clients(void *unused)
{
    const struct timespec pause = {0, 10000000};
    pthread_attr_t detached;
    pthread_attr_init(&detached);
    pthread_attr_setdetachstate(&detached, PTHREAD_CREATE_DETACHED);
    pthread_attr_setstacksize(&detached, STACK);
    for (;;) {
        int peer = accept(listener, NULL, NULL);
        if (peer >= 0)
            serve_apart(peer, &detached);
        else
            nanosleep(&pause, NULL);
    }
    return unused;
}

static void open_base(const char *name, const char *image_name)
{
    static uint8_t image[BODDURCI_IMAGE_MOST], text[200];
    size_t length, unit, text_length;
    boddurci_fault fault;
    FILE *file = fopen(image_name, "rb");
    if (file == NULL)
        end_by(image_name, "cannot be read");
    length = fread(image, 1, sizeof image, file);
    fclose(file);
    base = boddurci_open_files(name, 0, &fault);
    if (base == NULL)
        end_by(name, fault.text);
    boddurci *db = boddurci_take(base);
    uint32_t status = boddurci_submit(db, image, length, &lease, &unit, text, sizeof text, &text_length);
    boddurci_give(base);
    if (status != BODDURCI_DONE)
        end_by(image_name, boddurci_text(status));
}

static void listen_at(const char *name)
{
    struct sockaddr_un address = {.sun_family = AF_UNIX};
    if (strlen(name) >= sizeof address.sun_path)
        end_by(name, "the name of the socket is too long");
    strcpy(address.sun_path, name);
    unlink(name);
    listener = socket(AF_UNIX, SOCK_STREAM, 0);
    if (listener < 0 || bind(listener, (struct sockaddr *)&address, sizeof address) != 0 || listen(listener, 100) != 0)
        end_by(name, "no socket can be had");
}

int main(int count, char **words)
{
    pthread_t thread;
    sigset_t ends;
    int number;
    if (count != 4)
        end_by("usage", "leased BASE SOCKET IMAGE");
    signal(SIGPIPE, SIG_IGN);
    open_base(words[1], words[3]);
    sigemptyset(&ends);
    sigaddset(&ends, SIGTERM);
    sigaddset(&ends, SIGINT);
    pthread_sigmask(SIG_BLOCK, &ends, NULL);
    listen_at(words[2]);
    if (pthread_create(&thread, NULL, accept_clients, NULL) != 0)
        end_by("a thread", "cannot be created");
    sigwait(&ends, &number);
    unlink(words[2]);
    return 0;
}
