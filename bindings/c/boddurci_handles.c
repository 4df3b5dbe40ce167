/* The calls of boddurci.h that take a handle, a ticket or a reading. Each call checks these pointers for NULL and then makes the proved
 * call, which does not accept NULL. If a call here has the name of an export of crates/boddurci_c, ./dbm --build-library renames that
 * export to boddurci_proved_NAME. */
#include "boddurci.h"

#pragma GCC visibility push(hidden)
uint32_t boddurci_proved_open(boddurci *db, const uint8_t *dir, size_t dir_length, const uint8_t *pag, size_t pag_length, uint32_t wide,
                              uint32_t unsigned_keys, uint8_t *text, size_t text_room, size_t *text_length);
uint32_t boddurci_proved_read(boddurci_reading *reading, uint32_t wide, const uint8_t *piece, size_t piece_length);
uint32_t boddurci_proved_reading_looks_small(boddurci_reading *reading, const uint8_t *dir, size_t dir_length, uint32_t unsigned_keys,
                                             uint32_t *looks_small);
uint32_t boddurci_proved_open_reading(boddurci *db, boddurci_reading *reading, const uint8_t *dir, size_t dir_length, uint32_t wide,
                                      uint32_t unsigned_keys, uint8_t *text, size_t text_room, size_t *text_length);
void boddurci_proved_end_reading(boddurci_reading *reading);
uint32_t boddurci_proved_is_open(boddurci *db);
void boddurci_proved_close(boddurci *db);
uint32_t boddurci_proved_limit(boddurci *db, size_t bytes);
uint32_t boddurci_proved_fetch(boddurci *db, const uint8_t *key, size_t key_length, uint8_t *value, size_t value_room, size_t *value_length);
uint32_t boddurci_proved_store(boddurci *db, const uint8_t *key, size_t key_length, const uint8_t *value, size_t value_length,
                               uint32_t replace);
uint32_t boddurci_proved_delete(boddurci *db, const uint8_t *key, size_t key_length);
uint32_t boddurci_proved_count(boddurci *db, size_t *count);
uint32_t boddurci_proved_submit(boddurci *db, const uint8_t *image, size_t image_length, uint32_t *number, size_t *unit, uint8_t *text,
                                size_t text_room, size_t *text_length);
uint32_t boddurci_proved_submit_stock(boddurci *db, const uint8_t *name, size_t name_length, uint32_t *number);
uint32_t boddurci_proved_run(boddurci *db, uint32_t number, const uint8_t *key, size_t key_length, const uint8_t *arg, size_t arg_length,
                             uint32_t has_blank, size_t blank, uint64_t now, uint64_t *end, uint64_t *word);
uint32_t boddurci_proved_ask(boddurci *db, boddurci_ticket *ticket, uint32_t number, const uint8_t *key, size_t key_length,
                             const uint8_t *arg, size_t arg_length, uint32_t has_blank, size_t blank, uint64_t now);
uint32_t boddurci_proved_work(boddurci_ticket *ticket);
uint32_t boddurci_proved_finish(boddurci *db, boddurci_ticket *ticket, uint64_t *end, uint64_t *word);
void boddurci_proved_abandon(boddurci_ticket *ticket);
uint32_t boddurci_proved_first(boddurci *db, boddurci_cursor *cursor);
uint32_t boddurci_proved_next(boddurci *db, boddurci_cursor *cursor, uint8_t *key, size_t key_room, size_t *key_length, uint8_t *value,
                              size_t value_room, size_t *value_length);
uint32_t boddurci_proved_files(boddurci *db, uint8_t *dir, size_t dir_room, size_t *dir_length, uint8_t *pag, size_t pag_room,
                               size_t *pag_length);
uint32_t boddurci_proved_changed(boddurci *db, uint32_t *numbers, size_t room, size_t *count);
uint32_t boddurci_proved_plan(boddurci *db, const uint8_t *dir, size_t dir_length, size_t pag_length, const uint32_t *numbers, size_t count,
                              const uint8_t *pages, size_t pages_length, uint8_t *plan, size_t plan_room, size_t *plan_length);
uint32_t boddurci_proved_mark(boddurci *db, const uint32_t *numbers, size_t count);
#pragma GCC visibility pop

/* ---- opening and closing */

uint32_t boddurci_open(boddurci *db, const uint8_t *dir, size_t dir_length, const uint8_t *pag, size_t pag_length, uint32_t wide,
                       uint32_t unsigned_keys, uint8_t *text, size_t text_room, size_t *text_length)
{
    if (db == NULL)
        return BODDURCI_IS_CLOSED;
    return boddurci_proved_open(db, dir, dir_length, pag, pag_length, wide, unsigned_keys, text, text_room, text_length);
}

uint32_t boddurci_read(boddurci_reading *reading, uint32_t wide, const uint8_t *piece, size_t piece_length)
{
    return reading != NULL ? boddurci_proved_read(reading, wide, piece, piece_length) : BODDURCI_IS_CLOSED;
}

uint32_t boddurci_reading_looks_small(boddurci_reading *reading, const uint8_t *dir, size_t dir_length, uint32_t unsigned_keys,
                                      uint32_t *looks_small)
{
    if (reading == NULL)
        return BODDURCI_IS_CLOSED;
    return boddurci_proved_reading_looks_small(reading, dir, dir_length, unsigned_keys, looks_small);
}

uint32_t boddurci_open_reading(boddurci *db, boddurci_reading *reading, const uint8_t *dir, size_t dir_length, uint32_t wide,
                               uint32_t unsigned_keys, uint8_t *text, size_t text_room, size_t *text_length)
{
    if (db == NULL || reading == NULL)
        return BODDURCI_IS_CLOSED;
    return boddurci_proved_open_reading(db, reading, dir, dir_length, wide, unsigned_keys, text, text_room, text_length);
}

void boddurci_end_reading(boddurci_reading *reading)
{
    if (reading != NULL)
        boddurci_proved_end_reading(reading);
}

uint32_t boddurci_is_open(boddurci *db)
{
    return db != NULL ? boddurci_proved_is_open(db) : 0;
}

void boddurci_close(boddurci *db)
{
    if (db != NULL)
        boddurci_proved_close(db);
}

uint32_t boddurci_limit(boddurci *db, size_t bytes)
{
    return db != NULL ? boddurci_proved_limit(db, bytes) : BODDURCI_IS_CLOSED;
}

/* ---- pairs */

uint32_t boddurci_fetch(boddurci *db, const uint8_t *key, size_t key_length, uint8_t *value, size_t value_room, size_t *value_length)
{
    return db != NULL ? boddurci_proved_fetch(db, key, key_length, value, value_room, value_length) : BODDURCI_IS_CLOSED;
}

uint32_t boddurci_store(boddurci *db, const uint8_t *key, size_t key_length, const uint8_t *value, size_t value_length,
                        uint32_t replace)
{
    return db != NULL ? boddurci_proved_store(db, key, key_length, value, value_length, replace) : BODDURCI_IS_CLOSED;
}

uint32_t boddurci_delete(boddurci *db, const uint8_t *key, size_t key_length)
{
    return db != NULL ? boddurci_proved_delete(db, key, key_length) : BODDURCI_IS_CLOSED;
}

uint32_t boddurci_count(boddurci *db, size_t *count)
{
    return db != NULL ? boddurci_proved_count(db, count) : BODDURCI_IS_CLOSED;
}

uint32_t boddurci_first(boddurci *db, boddurci_cursor *cursor)
{
    return db != NULL ? boddurci_proved_first(db, cursor) : BODDURCI_IS_CLOSED;
}

uint32_t boddurci_next(boddurci *db, boddurci_cursor *cursor, uint8_t *key, size_t key_room, size_t *key_length, uint8_t *value,
                       size_t value_room, size_t *value_length)
{
    if (db == NULL)
        return BODDURCI_IS_CLOSED;
    return boddurci_proved_next(db, cursor, key, key_room, key_length, value, value_room, value_length);
}

/* ---- programs */

uint32_t boddurci_submit(boddurci *db, const uint8_t *image, size_t image_length, uint32_t *number, size_t *unit, uint8_t *text,
                         size_t text_room, size_t *text_length)
{
    if (db == NULL)
        return BODDURCI_IS_CLOSED;
    return boddurci_proved_submit(db, image, image_length, number, unit, text, text_room, text_length);
}

uint32_t boddurci_submit_stock(boddurci *db, const uint8_t *name, size_t name_length, uint32_t *number)
{
    return db != NULL ? boddurci_proved_submit_stock(db, name, name_length, number) : BODDURCI_IS_CLOSED;
}

uint32_t boddurci_run(boddurci *db, uint32_t number, const uint8_t *key, size_t key_length, const uint8_t *arg, size_t arg_length,
                      uint32_t has_blank, size_t blank, uint64_t now, uint64_t *end, uint64_t *word)
{
    if (db == NULL)
        return BODDURCI_IS_CLOSED;
    return boddurci_proved_run(db, number, key, key_length, arg, arg_length, has_blank, blank, now, end, word);
}

uint32_t boddurci_ask(boddurci *db, boddurci_ticket *ticket, uint32_t number, const uint8_t *key, size_t key_length, const uint8_t *arg,
                      size_t arg_length, uint32_t has_blank, size_t blank, uint64_t now)
{
    if (db == NULL)
        return BODDURCI_IS_CLOSED;
    if (ticket == NULL)
        return BODDURCI_NO_TICKET;
    return boddurci_proved_ask(db, ticket, number, key, key_length, arg, arg_length, has_blank, blank, now);
}

uint32_t boddurci_work(boddurci_ticket *ticket)
{
    return ticket != NULL ? boddurci_proved_work(ticket) : BODDURCI_NO_TICKET;
}

uint32_t boddurci_finish(boddurci *db, boddurci_ticket *ticket, uint64_t *end, uint64_t *word)
{
    if (db == NULL)
        return BODDURCI_IS_CLOSED;
    return ticket != NULL ? boddurci_proved_finish(db, ticket, end, word) : BODDURCI_NO_TICKET;
}

void boddurci_abandon(boddurci_ticket *ticket)
{
    if (ticket != NULL)
        boddurci_proved_abandon(ticket);
}

/* ---- files and plans */

uint32_t boddurci_files(boddurci *db, uint8_t *dir, size_t dir_room, size_t *dir_length, uint8_t *pag, size_t pag_room,
                        size_t *pag_length)
{
    if (db == NULL)
        return BODDURCI_IS_CLOSED;
    return boddurci_proved_files(db, dir, dir_room, dir_length, pag, pag_room, pag_length);
}

uint32_t boddurci_changed(boddurci *db, uint32_t *numbers, size_t room, size_t *count)
{
    return db != NULL ? boddurci_proved_changed(db, numbers, room, count) : BODDURCI_IS_CLOSED;
}

uint32_t boddurci_plan(boddurci *db, const uint8_t *dir, size_t dir_length, size_t pag_length, const uint32_t *numbers, size_t count,
                       const uint8_t *pages, size_t pages_length, uint8_t *plan, size_t plan_room, size_t *plan_length)
{
    if (db == NULL)
        return BODDURCI_IS_CLOSED;
    return boddurci_proved_plan(db, dir, dir_length, pag_length, numbers, count, pages, pages_length, plan, plan_room, plan_length);
}

uint32_t boddurci_mark(boddurci *db, const uint32_t *numbers, size_t count)
{
    return db != NULL ? boddurci_proved_mark(db, numbers, count) : BODDURCI_IS_CLOSED;
}
