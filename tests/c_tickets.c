/* Tests runs by a ticket, and threads that run a program under a mutex. Part of tests/c_library.c. */
#include "c_library.h"
#include <pthread.h>
#include <time.h>

static uint64_t count_at(boddurci *db, const char *key)
{
    uint8_t value[8];
    size_t length;
    EXPECT(boddurci_fetch(db, (const uint8_t *)key, strlen(key), value, sizeof value, &length) == BODDURCI_DONE && length == 8);
    return number_of(value);
}

static void test_one_ticket(void)
{
    boddurci db = BODDURCI_CLOSED;
    boddurci_ticket ticket = BODDURCI_FREE;
    uint8_t arg[BODDURCI_ARG_MOST + 1] = {0};
    size_t length;
    uint64_t end = 9, word = 9;
    open_empty(&db, 0, 0);
    EXPECT(ask(&db, &ticket, "hits", 1) == BODDURCI_NO_PROGRAM && boddurci_work(&ticket) == BODDURCI_NO_TICKET);
    submit_counter(&db);
    EXPECT(boddurci_ask(&db, &ticket, 0, BYTES("hits"), arg, sizeof arg, 1, 1005, 0) == BODDURCI_PAIR_TOO_LARGE);
    EXPECT(boddurci_ask(&db, &ticket, 0, BYTES("hits"), arg, sizeof arg, 1, 1004, 0) == BODDURCI_ARG_TOO_LONG);
    EXPECT(boddurci_finish(&db, &ticket, &end, &word) == BODDURCI_NO_TICKET && end == 9);
    EXPECT(ask(&db, &ticket, "hits", 1) == BODDURCI_DONE && boddurci_finish(&db, &ticket, &end, &word) == BODDURCI_NO_TICKET);
    EXPECT(boddurci_work(&ticket) == BODDURCI_DONE && boddurci_work(&ticket) == BODDURCI_DONE);
    EXPECT(boddurci_count(&db, &length) == BODDURCI_DONE && length == 0);
    EXPECT(boddurci_finish(&db, &ticket, &end, &word) == BODDURCI_DONE && end == 1 && word == 0 && count_at(&db, "hits") == 1);
    EXPECT(boddurci_finish(&db, &ticket, &end, &word) == BODDURCI_NO_TICKET && boddurci_work(&ticket) == BODDURCI_NO_TICKET);
    EXPECT(ask(&db, &ticket, "none", 0) == BODDURCI_DONE && boddurci_work(&ticket) == BODDURCI_DONE);
    EXPECT(boddurci_finish(&db, &ticket, &end, &word) == BODDURCI_MISSING && end == 0);
    /* boddurci_ask replaces an earlier run in the ticket. */
    EXPECT(ask(&db, &ticket, "other", 1) == BODDURCI_DONE && boddurci_work(&ticket) == BODDURCI_DONE);
    EXPECT(ask(&db, &ticket, "hits", 1) == BODDURCI_DONE && boddurci_finish(&db, &ticket, &end, &word) == BODDURCI_NO_TICKET);
    EXPECT(boddurci_work(&ticket) == BODDURCI_DONE && boddurci_finish(&db, &ticket, &end, &word) == BODDURCI_DONE);
    EXPECT(count_at(&db, "hits") == 2);
    boddurci_abandon(&ticket);
    boddurci_close(&db);
}

/* Tests tickets with other calls in between: on the page, on the handle, and on other pages. */
static void test_meanwhile(void)
{
    boddurci db = BODDURCI_CLOSED, wide = BODDURCI_CLOSED, twin = BODDURCI_CLOSED;
    boddurci_ticket ticket = BODDURCI_FREE, second = BODDURCI_FREE;
    uint64_t end, word;
    open_empty(&db, 0, 0);
    submit_counter(&db);
    EXPECT(ask(&db, &ticket, "hits", 1) == BODDURCI_DONE && boddurci_work(&ticket) == BODDURCI_DONE);
    EXPECT(ask(&db, &second, "hits", 1) == BODDURCI_DONE && boddurci_work(&second) == BODDURCI_DONE);
    EXPECT(boddurci_finish(&db, &second, &end, &word) == BODDURCI_DONE);
    EXPECT(boddurci_finish(&db, &ticket, &end, &word) == BODDURCI_CHANGED && count_at(&db, "hits") == 1);
    EXPECT(boddurci_finish(&db, &ticket, &end, &word) == BODDURCI_CHANGED);
    /* The page has its old contents again. */
    EXPECT(boddurci_delete(&db, BYTES("hits")) == BODDURCI_DONE);
    EXPECT(boddurci_finish(&db, &ticket, &end, &word) == BODDURCI_DONE && count_at(&db, "hits") == 1);
    EXPECT(ask(&db, &ticket, "hits", 1) == BODDURCI_DONE && boddurci_work(&ticket) == BODDURCI_DONE);
    EXPECT(boddurci_store(&db, BYTES("beside"), BYTES("it"), 1) == BODDURCI_DONE);
    EXPECT(boddurci_finish(&db, &ticket, &end, &word) == BODDURCI_CHANGED);
    /* Two other handles: one with a different page, and one with the same page. */
    EXPECT(ask(&db, &ticket, "new", 1) == BODDURCI_DONE && boddurci_work(&ticket) == BODDURCI_DONE);
    open_empty(&wide, 1, 0);
    EXPECT(boddurci_finish(&wide, &ticket, &end, &word) == BODDURCI_CHANGED);
    struct files files = files_of(&db);
    uint8_t text[100];
    size_t length;
    EXPECT(boddurci_open(&twin, files.dir, files.dir_length, files.pag, files.pag_length, 0, 0, text, sizeof text, &length) == BODDURCI_DONE);
    free_files(files);
    boddurci_close(&db);
    EXPECT(boddurci_finish(&db, &ticket, &end, &word) == BODDURCI_IS_CLOSED);
    EXPECT(boddurci_finish(&twin, &ticket, &end, &word) == BODDURCI_DONE && count_at(&twin, "new") == 1 && count_at(&twin, "hits") == 1);
    EXPECT(boddurci_finish(&wide, &ticket, &end, &word) == BODDURCI_NO_TICKET);
    /* A ticket with a run outlives its handle. */
    submit_counter(&twin);
    EXPECT(ask(&twin, &second, "new", 1) == BODDURCI_DONE);
    boddurci_close(&twin);
    boddurci_close(&wide);
    EXPECT(boddurci_work(&second) == BODDURCI_DONE);
    boddurci_abandon(&second);
}

/* Asks for a run on a random key. */
static void ask_at_random(boddurci *db, boddurci_ticket *ticket, char key[16], uint64_t *state)
{
    *ticket = (boddurci_ticket)BODDURCI_FREE;
    *state = *state * 6364136223846793005u + 1442695040888963407u;
    snprintf(key, 16, "key%u", (unsigned)(*state >> 40) % 3000);
    EXPECT(ask(db, ticket, key, 1) == BODDURCI_DONE);
}

/* Many concurrent tickets have the same results and files as the same runs on another handle. The order of boddurci_work and
 * boddurci_finish differs from the order of boddurci_ask. */
static void test_many_tickets(void)
{
    enum { OPEN = 40, ROUNDS = 60 };
    boddurci db = BODDURCI_CLOSED, model = BODDURCI_CLOSED;
    boddurci_ticket tickets[OPEN];
    char keys[OPEN][16];
    uint64_t end, word, model_end, model_word, state = 1;
    unsigned long changed = 0;
    open_empty(&db, 0, 0);
    open_empty(&model, 0, 0);
    submit_counter(&db);
    submit_counter(&model);
    for (int round = 0; round < ROUNDS; round++) {
        for (int i = 0; i < OPEN; i++)
            ask_at_random(&db, &tickets[i], keys[i], &state);
        for (int i = 0; i < OPEN; i++)
            EXPECT(boddurci_work(&tickets[i * 7 % OPEN]) == BODDURCI_DONE);
        for (int i = 0; i < OPEN; i++) {
            int at = i * 11 % OPEN;
            uint32_t status = boddurci_finish(&db, &tickets[at], &end, &word);
            EXPECT(status == BODDURCI_DONE || status == BODDURCI_CHANGED);
            if (status == BODDURCI_DONE) {
                EXPECT(boddurci_run(&model, 0, (const uint8_t *)keys[at], strlen(keys[at]), BODDURCI_NO_BYTES, 1, 8, 0, &model_end, &model_word) == status);
                EXPECT(end == model_end && word == model_word);
            }
            changed += status == BODDURCI_CHANGED;
            boddurci_abandon(&tickets[at]);
        }
    }
    EXPECT(changed != 0 && changed < OPEN * ROUNDS);
    struct files files = files_of(&db), others = files_of(&model);
    EXPECT(are_same(files, others));
    free_files(files);
    free_files(others);
    boddurci_close(&db);
    boddurci_close(&model);
}

void test_tickets(void)
{
    test_one_ticket();
    test_meanwhile();
    test_many_tickets();
}

/* ---- threads under a mutex */

static pthread_mutex_t mutex = PTHREAD_MUTEX_INITIALIZER;
static boddurci shared = BODDURCI_CLOSED;
static time_t until;

static void run_under(const char *key)
{
    uint64_t end, word;
    pthread_mutex_lock(&mutex);
    if (boddurci_run(&shared, 0, (const uint8_t *)key, strlen(key), BODDURCI_NO_BYTES, 1, 8, 0, &end, &word) != BODDURCI_DONE)
        abort();
    pthread_mutex_unlock(&mutex);
}

/* Runs by a ticket, outside the mutex, until it succeeds. */
static uint64_t run_by_ticket(const char *key)
{
    boddurci_ticket ticket = BODDURCI_FREE;
    uint64_t end, word, again = 0;
    uint32_t status = BODDURCI_CHANGED;
    for (; status == BODDURCI_CHANGED; again++) {
        pthread_mutex_lock(&mutex);
        uint32_t asked = ask(&shared, &ticket, key, 1);
        pthread_mutex_unlock(&mutex);
        if (asked != BODDURCI_DONE || boddurci_work(&ticket) != BODDURCI_DONE)
            abort();
        pthread_mutex_lock(&mutex);
        status = boddurci_finish(&shared, &ticket, &end, &word);
        pthread_mutex_unlock(&mutex);
    }
    if (status != BODDURCI_DONE || end != 1)
        abort();
    return again - 1;
}

/* A thread: its key, whether it runs by tickets, and the numbers of its runs and of its repeated runs. */
struct worker {
    const char *key;
    int by_ticket;
    uint64_t done, again;
};

static void *work(void *given)
{
    struct worker *worker = given;
    /* Run at least once, since on a busy machine a thread may wait long for the mutex. */
    do {
        if (worker->by_ticket) {
            worker->again += run_by_ticket(worker->key);
            worker->again += run_by_ticket("all");
        } else {
            run_under(worker->key);
            run_under("all");
        }
        worker->done++;
    } while (time(NULL) < until);
    return NULL;
}

void test_threads(int seconds)
{
    enum { THREADS = 4 };
    struct worker workers[THREADS] = {{"t0", 0, 0, 0}, {"t1", 0, 0, 0}, {"t2", 1, 0, 0}, {"t3", 1, 0, 0}};
    pthread_t threads[THREADS];
    uint64_t all = 0, again = 0;
    open_empty(&shared, 0, 0);
    submit_counter(&shared);
    until = time(NULL) + seconds;
    for (int i = 0; i < THREADS; i++)
        EXPECT(pthread_create(&threads[i], NULL, work, &workers[i]) == 0);
    for (int i = 0; i < THREADS; i++)
        EXPECT(pthread_join(threads[i], NULL) == 0);
    for (int i = 0; i < THREADS; i++) {
        EXPECT(count_at(&shared, workers[i].key) == workers[i].done && workers[i].done != 0);
        all += workers[i].done;
        again += workers[i].again;
    }
    EXPECT(count_at(&shared, "all") == all);
    boddurci_close(&shared);
    printf("%llu runs by %d threads, %llu of them begun anew\n", (unsigned long long)(2 * all), THREADS, (unsigned long long)again);
}
