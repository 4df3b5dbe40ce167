/* Tests shared bases of several users: one who may only read the files, and two of one group. Part of tests/c_shared.c. */
#define _GNU_SOURCE
#include "c_shared.h"
#include <errno.h>
#include <fcntl.h>
#include <grp.h>
#include <sys/stat.h>
#include <sys/wait.h>
#include <unistd.h>

/* Tests a folder and files that this user may only read. */
void test_readers(void)
{
    if (geteuid() != 0)
        return;
    boddurci_shared *shared = opened("read/db", 0);
    EXPECT(store(shared, "a", "b") == BODDURCI_DONE && is_marked("read/db"));
    boddurci_close_shared(shared);
    EXPECT(seteuid(65534) == 0);
    shared = opened("read/db", 0);
    EXPECT(has(shared, "a", "b") && has(shared, "b", NULL));
    EXPECT(store(shared, "a", "c") == BODDURCI_FILE_FAILED && fault.system == EACCES && has(shared, "a", "b"));
    boddurci_close_shared(shared);
    EXPECT(seteuid(0) == 0);
    /* Without a note the log is applied in memory. */
    static const uint8_t none[136];
    int redo = open("read/db.redo", O_RDWR);
    EXPECT(redo >= 0 && pwrite(redo, none, sizeof none, 16) == sizeof none && close(redo) == 0);
    EXPECT(seteuid(65534) == 0);
    shared = opened("read/db", 0);
    EXPECT(has(shared, "a", "b"));
    boddurci_close_shared(shared);
    EXPECT(seteuid(0) == 0 && is_marked("read/db"));
    shared = opened("read/db", 0);
    EXPECT(has(shared, "a", "b") && !is_marked("read/db"));
    boddurci_close_shared(shared);
}

/* ---- two users of one group, only one of whom owns the files */

enum { OWNER = 7001, MEMBER = 7002, GROUP = 7003 };
static const char of_group[] = "group/db";

/* Runs a test as a user of the group, in a child. Returns whether it passed. */
static int passes_as(uid_t user, void (*test)(void))
{
    int status;
    fflush(NULL);
    pid_t child = fork();
    if (child == 0) {
        umask(0007);
        EXPECT(setgroups(0, NULL) == 0 && setresgid(GROUP, GROUP, GROUP) == 0 && setresuid(user, user, user) == 0);
        test();
        exit(0);
    }
    return waitpid(child, &status, 0) == child && status == 0;
}

static void store_as_owner(void)
{
    boddurci_shared *shared = opened(of_group, 0);
    EXPECT(store(shared, "a", "owner") == BODDURCI_DONE && has(shared, "a", "owner"));
    boddurci_close_shared(shared);
    boddurci_close_files(boddurci_open_files(of_group, 0, &fault));
    EXPECT(fault.status == BODDURCI_DONE && !is_marked(of_group));
}

static void store_as_member(void)
{
    boddurci_shared *shared = opened(of_group, 0);
    EXPECT(store(shared, "a", "member") == BODDURCI_DONE && has(shared, "a", "member"));
    EXPECT(store(shared, "b", "member") == BODDURCI_DONE && has(shared, "b", "member"));
    boddurci_close_shared(shared);
}

static void find_as_owner(void)
{
    boddurci_shared *shared = opened(of_group, 0);
    EXPECT(has(shared, "a", "member") && has(shared, "b", "member"));
    boddurci_close_shared(shared);
}

static void delete_as_member(void)
{
    boddurci_shared *shared = opened(of_group, 0);
    EXPECT(boddurci_shared_delete(shared, BYTES("c"), &fault) == BODDURCI_MISSING);
    boddurci_close_shared(shared);
}

/* A member of the group makes the redo file, but cannot give it to the owner of .pag. So the call must remove the file at its end. */
void test_group(void)
{
    struct stat found;
    if (geteuid() != 0)
        return;
    EXPECT(mkdir("group", 0700) == 0 && chown("group", OWNER, GROUP) == 0 && chmod("group", 0770) == 0);
    EXPECT(passes_as(OWNER, store_as_owner));
    EXPECT(stat("group/db.pag", &found) == 0 && found.st_uid == OWNER && found.st_gid == GROUP && (found.st_mode & 0777) == 0660);
    EXPECT(unlink("group/db.redo") == 0 && passes_as(MEMBER, store_as_member) && passes_as(OWNER, find_as_owner));
    EXPECT(access("group/db.redo", F_OK) != 0 && passes_as(OWNER, store_as_owner) && passes_as(MEMBER, store_as_member));
    /* The member may use the redo file of the owner. */
    EXPECT(stat("group/db.redo", &found) == 0 && found.st_uid == OWNER && passes_as(OWNER, find_as_owner));
    /* A killed call of the member has left its redo file. The next call removes it, even if it changes nothing. */
    EXPECT(is_marked(of_group) && chown("group/db.redo", MEMBER, GROUP) == 0 && passes_as(MEMBER, delete_as_member));
    EXPECT(access("group/db.redo", F_OK) != 0 && passes_as(OWNER, find_as_owner));
}
