/* Compares a shared base with a model: the same commands on a handle in memory. Part of tests/c_shared.c. */
#define _GNU_SOURCE
#include "c_shared.h"

/* Returns whether the data files are those of a handle. */
static int has_files(boddurci *db, const char *base)
{
    uint8_t none[1];
    size_t dir_length, pag_length;
    uint32_t status = boddurci_files(db, none, 0, &dir_length, none, 0, &pag_length);
    EXPECT(status == BODDURCI_SHORT_ROOM || (status == BODDURCI_DONE && dir_length + pag_length == 0));
    uint8_t *dir = malloc(dir_length + 1), *pag = malloc(pag_length + 1);
    EXPECT(boddurci_files(db, dir, dir_length, &dir_length, pag, pag_length, &pag_length) == BODDURCI_DONE);
    struct bytes in_dir = read_file(base, ".dir"), in_pag = read_file(base, ".pag");
    int are_same = dir_length == in_dir.length && pag_length == in_pag.length && memcmp(dir, in_dir.at, dir_length) == 0 &&
                   memcmp(pag, in_pag.at, pag_length) == 0;
    free(dir);
    free(pag);
    free(in_dir.at);
    free(in_pag.at);
    return are_same;
}

/* Makes a key from a small set. Some keys consist of zeros and all have the same hash. */
static size_t key_of(uint32_t number, uint8_t key[40])
{
    if (number % 17 == 0) {
        memset(key, 0, number % 11);
        return number % 11;
    }
    return (size_t)sprintf((char *)key, "%s%u", number % 2 ? "key " : "", number * 2654435761u);
}

struct model {
    boddurci db;
    boddurci_shared *shared;
    uint32_t programs[3];
    size_t most; /* the greatest length of a value */
};

static void same_fetch(struct model *model, const uint8_t *key, size_t length)
{
    uint8_t rooms[2][BODDURCI_VALUE_MOST];
    size_t lengths[2] = {7, 7}, most = roll(4) ? sizeof rooms[0] : 5;
    uint32_t status = boddurci_fetch(&model->db, key, length, rooms[0], most, &lengths[0]);
    EXPECT(boddurci_shared_fetch(model->shared, key, length, rooms[1], most, &lengths[1], &fault) == status && fault.status == status);
    EXPECT(lengths[0] == lengths[1] && (status != BODDURCI_DONE || memcmp(rooms[0], rooms[1], lengths[0]) == 0));
}

static void same_store(struct model *model, const uint8_t *key, size_t length)
{
    uint8_t value[BODDURCI_VALUE_MOST + 1];
    size_t value_length = roll(3) ? roll(40) : roll((uint32_t)model->most + 2);
    uint32_t replace = roll(3) != 0;
    memset(value, (int)roll(256), value_length);
    uint32_t status = boddurci_store(&model->db, key, length, value, value_length, replace);
    EXPECT(boddurci_shared_store(model->shared, key, length, value, value_length, replace, &fault) == status && fault.status == status);
}

static void same_run(struct model *model, const uint8_t *key, size_t length)
{
    uint8_t arg[24] = {(uint8_t)roll(3)};
    uint64_t ends[2] = {7, 7}, words[2] = {7, 7}, now = roll(100);
    uint32_t number = roll(20) ? model->programs[roll(3)] : 9, has_blank = roll(3) != 0;
    size_t blank = roll(9) ? 8 * (1 + roll(3)) : roll(9000);
    memset(arg + 16, 255, 8);
    uint32_t status = boddurci_run(&model->db, number, key, length, arg, sizeof arg, has_blank, blank, now, &ends[0], &words[0]);
    EXPECT(boddurci_shared_run(model->shared, number, key, length, arg, sizeof arg, has_blank, blank, now, &ends[1], &words[1], &fault) ==
           status);
    EXPECT(fault.status == status && ends[0] == ends[1] && words[0] == words[1]);
}

static void same_add(struct model *model, const uint8_t *key, size_t length)
{
    uint64_t ends[2] = {7, 7}, sums[2] = {7, 7}, least = roll(3), greatest = roll(4) ? UINT64_MAX : roll(20);
    int64_t amount = roll(5) ? (int64_t)roll(12) - 5 : INT64_MAX;
    uint32_t status = boddurci_add(&model->db, key, length, amount, least, greatest, &ends[0], &sums[0]);
    EXPECT(boddurci_shared_add(model->shared, key, length, amount, least, greatest, &ends[1], &sums[1], &fault) == status);
    EXPECT(fault.status == status && ends[0] == ends[1] && sums[0] == sums[1]);
}

static void same_command(struct model *model, uint32_t keys)
{
    uint8_t key[40];
    size_t length = key_of(roll(keys), key);
    uint32_t kind = roll(9);
    if (kind < 2)
        same_fetch(model, key, length);
    else if (kind < 5)
        same_store(model, key, length);
    else if (kind < 6)
        same_run(model, key, length);
    else if (kind < 7)
        same_add(model, key, length);
    else {
        uint32_t status = boddurci_delete(&model->db, key, length);
        EXPECT(boddurci_shared_delete(model->shared, key, length, &fault) == status && fault.status == status);
    }
    EXPECT(fault.system == 0);
}

/* Deletes all keys. Both files are then empty. */
static void delete_all(struct model *model, uint32_t keys)
{
    uint8_t key[40];
    for (uint32_t i = 0; i < keys; i++) {
        size_t length = key_of(i, key);
        uint32_t status = boddurci_delete(&model->db, key, length);
        EXPECT(boddurci_shared_delete(model->shared, key, length, &fault) == status);
    }
}

/* Compares the data files. They have all changes after a flush. */
static void same_files(struct model *model, const char *name)
{
    EXPECT(boddurci_shared_flush(model->shared, &fault) == BODDURCI_DONE && has_files(&model->db, name));
}

void test_model(const char *name, uint32_t flags, uint32_t keys, int commands)
{
    static const char *const stocks[3] = {"bounded_counter", "lease", "token_bucket"};
    uint8_t text[100];
    size_t length;
    struct model model = {.db = BODDURCI_CLOSED, .most = BODDURCI_PAIR_MOST(flags & BODDURCI_WIDE)};
    uint32_t wide = flags & BODDURCI_WIDE, is_unsigned = (flags & BODDURCI_UNSIGNED_KEYS) != 0;
    EXPECT(boddurci_open(&model.db, BODDURCI_NO_BYTES, BODDURCI_NO_BYTES, wide, is_unsigned, text, sizeof text, &length) == BODDURCI_DONE);
    model.shared = opened(name, flags);
    seed = keys;
    for (int i = 0; i < 3; i++) {
        uint32_t number = 0;
        EXPECT(boddurci_stock(&model.db, stocks[i], &model.programs[i]) == BODDURCI_DONE);
        EXPECT(boddurci_shared_stock(model.shared, stocks[i], &number) == BODDURCI_DONE && number == model.programs[i]);
    }
    for (int i = 0; i < commands; i++) {
        same_command(&model, keys);
        if (i % 100 == 0)
            same_files(&model, name);
    }
    same_files(&model, name);
    delete_all(&model, keys);
    same_files(&model, name);
    boddurci_close_shared(model.shared);
    boddurci_close(&model.db);
}
