/* Tests files that are passed in pieces: reading and opening. tests/c_library.c runs it. */
#include "c_library.h"

/* Passes the bytes of a .pag in pieces of a given length. */
static uint32_t read_in(boddurci_reading *reading, uint32_t wide, const uint8_t *pag, size_t length, size_t piece)
{
    uint32_t status = BODDURCI_DONE;
    for (size_t at = 0, next; at < length && status == BODDURCI_DONE; at += next) {
        next = length - at < piece ? length - at : piece;
        status = boddurci_read(reading, wide, pag + at, next);
    }
    return status;
}

/* Makes a base of some pairs, with a page of zeros between two pages. */
static struct files made(uint32_t wide)
{
    boddurci db = BODDURCI_CLOSED;
    char key[16];
    open_empty(&db, wide, 0);
    for (int i = 0; i < 3000; i++)
        EXPECT(boddurci_store(&db, (const uint8_t *)key, (size_t)snprintf(key, sizeof key, "%d", i), (const uint8_t *)&i, sizeof i, 1) ==
               BODDURCI_DONE);
    struct files files = files_of(&db);
    boddurci_close(&db);
    return files;
}

/* A text in its buffer. */
struct text {
    uint8_t room[100];
    size_t length;
};

static uint32_t open_read(boddurci *db, boddurci_reading *reading, struct files files, uint32_t wide, struct text *text)
{
    memset(text, 0, sizeof *text);
    return boddurci_open_reading(db, reading, files.dir, files.dir_length, wide, 0, text->room, sizeof text->room, &text->length);
}

/* Tests that opening a reading has the same result as opening the bytes: the same database, or the same fault. */
static void test_alike(struct files files, uint32_t read_wide, uint32_t wide, size_t piece)
{
    boddurci whole = BODDURCI_CLOSED, pieces = BODDURCI_CLOSED;
    boddurci_reading reading = BODDURCI_UNREAD;
    struct text one = {{0}, 0}, other;
    uint32_t status = boddurci_open(&whole, files.dir, files.dir_length, files.pag, files.pag_length, wide, 0, one.room, sizeof one.room, &one.length);
    EXPECT(read_in(&reading, read_wide, files.pag, files.pag_length, piece) == BODDURCI_DONE);
    /* A refusal does not change the reading, so the second result is the same. */
    for (int time = 0; time < 2; time++) {
        EXPECT(open_read(&pieces, &reading, files, wide, &other) == status);
        EXPECT(one.length == other.length && !memcmp(one.room, other.room, sizeof one.room));
        if (status == BODDURCI_DONE)
            break;
    }
    if (status == BODDURCI_DONE) {
        struct files left = files_of(&whole), right = files_of(&pieces);
        uint32_t none;
        size_t changed = 0, again = 1;
        EXPECT(are_same(left, right));
        EXPECT(boddurci_changed(&whole, &none, 0, &changed) == boddurci_changed(&pieces, &none, 0, &again) && changed == again);
        free_files(left);
        free_files(right);
    }
    EXPECT(boddurci_is_open(&pieces) == (status == BODDURCI_DONE));
    boddurci_close(&whole);
    boddurci_close(&pieces);
    boddurci_end_reading(&reading);
}

/* Tests sizes of pieces, lengths that are not whole pages, invalid pages, and free bytes that are not zeros. */
static void test_pieces(uint32_t wide)
{
    struct files files = made(wide);
    size_t page = wide ? 8192 : 1024, lengths[] = {page, 3 * page, 262144};
    for (size_t i = 0; i < 3; i++)
        for (uint32_t read_wide = wide; read_wide < 2; read_wide++)
            test_alike(files, read_wide, wide, lengths[i] < 8192 && read_wide ? 8192 : lengths[i]);
    for (size_t less = 1; less < page; less += page / 3) {
        struct files shorter = files;
        shorter.pag_length -= less;
        test_alike(shorter, wide, wide, 262144);
    }
    files.pag[page - 1]++; /* the last value, or a free byte */
    test_alike(files, wide, wide, page);
    files.pag[page / 2]++;
    test_alike(files, wide, wide, page);
    files.pag[5 * page + 3] ^= 0x77;
    test_alike(files, wide, wide, 2 * page);
    files.dir[0] ^= 1;
    test_alike(files, wide, wide, page);
    free_files(files);
}

/* Tests the calls after a piece, and the state of a reading before the first piece and after an opening. */
static void test_states(void)
{
    static const uint8_t zeros[8192];
    boddurci db = BODDURCI_CLOSED;
    boddurci_reading reading = BODDURCI_UNREAD;
    struct files none = {(uint8_t *)"", (uint8_t *)"", 0, 0}, files = made(0);
    struct text text;
    uint32_t looks = 9;
    size_t count = 9;
    EXPECT(boddurci_reading_looks_small(&reading, BODDURCI_NO_BYTES, 0, &looks) == BODDURCI_DONE && looks == 0);
    EXPECT(open_read(&db, &reading, none, 1, &text) == BODDURCI_DONE && boddurci_count(&db, &count) == BODDURCI_DONE && count == 0);
    EXPECT(boddurci_read(&reading, 0, files.pag, files.pag_length) == BODDURCI_DONE);
    EXPECT(open_read(&db, &reading, files, 0, &text) == BODDURCI_IS_OPEN && text.length == 0);
    boddurci_close(&db);
    EXPECT(open_read(&db, &reading, files, 0, &text) == BODDURCI_DONE && boddurci_count(&db, &count) == BODDURCI_DONE && count == 3000);
    boddurci_close(&db);
    EXPECT(open_read(&db, &reading, none, 0, &text) == BODDURCI_DONE && boddurci_count(&db, &count) == BODDURCI_DONE && count == 0);
    boddurci_close(&db);
    /* after a piece that ends inside a page no piece is accepted, not even an empty one */
    EXPECT(boddurci_read(&reading, 1, zeros, 8192) == BODDURCI_DONE && boddurci_read(&reading, 0, zeros, 1024) == BODDURCI_DONE);
    EXPECT(boddurci_read(&reading, 1, zeros, 1024) == BODDURCI_BAD_FILES && boddurci_read(&reading, 1, zeros, 0) == BODDURCI_BAD_FILES);
    EXPECT(open_read(&db, &reading, none, 1, &text) == BODDURCI_BAD_FILES && text.length == 9 && !memcmp(text.room, "PagLength", 9));
    EXPECT(open_read(&db, &reading, none, 0, &text) == BODDURCI_DONE);
    boddurci_close(&db);
    EXPECT(read_in(&reading, 1, files.pag, files.pag_length, 8192) == BODDURCI_DONE);
    EXPECT(boddurci_reading_looks_small(&reading, files.dir, files.dir_length, 0, &looks) == BODDURCI_DONE && looks == 1);
    boddurci_end_reading(&reading);
    boddurci_end_reading(&reading);
    EXPECT(boddurci_reading_looks_small(&reading, files.dir, files.dir_length, 0, &looks) == BODDURCI_DONE && looks == 0);
    free_files(files);
}

void test_readings(void)
{
    test_states();
    test_pieces(0);
    test_pieces(1);
}

/* Passes the pieces of a page, and opens the reading. Returns whether an allocation failed. If the allocation for a piece fails, the
 * reading is unread afterwards. */
int reads_in_memory(struct files files)
{
    boddurci db = BODDURCI_CLOSED;
    boddurci_reading reading = BODDURCI_UNREAD;
    struct text text;
    uint32_t looks = 9, status = read_in(&reading, 0, files.pag, files.pag_length, 1024);
    EXPECT(status == BODDURCI_DONE || (status == BODDURCI_NO_MEMORY && reading.at == NULL));
    int was_met = status != BODDURCI_DONE;
    if (!was_met && files.pag_length != 0) {
        void *at = reading.at;
        status = boddurci_reading_looks_small(&reading, files.dir, files.dir_length, 0, &looks);
        EXPECT(reading.at == at && (status == BODDURCI_DONE || (status == BODDURCI_NO_MEMORY && looks == 9)));
        was_met = status != BODDURCI_DONE;
        status = open_read(&db, &reading, files, 0, &text);
        EXPECT((status == BODDURCI_DONE && reading.at == NULL) || (status == BODDURCI_NO_MEMORY && reading.at == at && !boddurci_is_open(&db)));
        was_met = was_met || status != BODDURCI_DONE;
    }
    boddurci_end_reading(&reading);
    boddurci_close(&db);
    return was_met;
}
