/* Saves bases whose names lead elsewhere at the time of the save, and saves in a child, for tests/hostile_library. Each command first
 * stores the pair `a` `1` in BASE, and at the end prints the result of the save.
 *
 *     c_hostile chdir BASE FOLDER       goes to another folder before it saves
 *     c_hostile swap BASE LINK TARGET   makes a link lead elsewhere before it saves
 *     c_hostile replace BASE FROM TO    gives a file another name before it saves
 *     c_hostile fork BASE               forks a child that saves and closes the base after a later save of its parent */
#define _POSIX_C_SOURCE 200809L
#include "boddurci_files.h"
#include <stdio.h>
#include <string.h>
#include <sys/wait.h>
#include <unistd.h>

static boddurci_fault fault;

static int store(boddurci_base *base, const char *value)
{
    boddurci *db = boddurci_take(base);
    if (db == NULL)
        return 1;
    uint32_t status = boddurci_store(db, (const uint8_t *)"a", 1, (const uint8_t *)value, strlen(value), 1);
    boddurci_give(base);
    return status != BODDURCI_DONE;
}

/* Saves and closes, and prints the result of the save. */
static int save(boddurci_base *base)
{
    uint32_t status = boddurci_save(base, &fault);
    printf("%u %s\n", (unsigned)status, fault.text);
    fflush(stdout);
    boddurci_close_files(base);
    return status == BODDURCI_DONE ? 0 : 2;
}

/* Runs in the child, after its parent has closed its end of the pipe. */
static int in_child(boddurci_base *base, int pipe_end)
{
    char byte;
    int is_stored = store(base, "child") == 0, is_over = read(pipe_end, &byte, 1) == 0;
    return is_stored || !is_over || save(base) != 2;
}

static int forks(boddurci_base *base)
{
    int ends[2], status;
    pid_t child = pipe(ends) == 0 ? fork() : -1;
    if (child == 0) {
        close(ends[1]);
        _exit(in_child(base, ends[0]));
    }
    if (child < 0 || store(base, "parent") != 0 || save(base) != 0)
        return 3;
    close(ends[1]);
    return waitpid(child, &status, 0) == child && WIFEXITED(status) ? WEXITSTATUS(status) : 3;
}

/* Makes the change between the store and the save. */
static int meddle(char **words, int count)
{
    if (count == 4 && strcmp(words[1], "chdir") == 0)
        return chdir(words[3]);
    if (count == 5 && strcmp(words[1], "swap") == 0)
        return unlink(words[3]) != 0 || symlink(words[4], words[3]) != 0;
    return count == 5 && strcmp(words[1], "replace") == 0 ? rename(words[3], words[4]) : -1;
}

int main(int count, char **words)
{
    boddurci_base *base = count >= 3 ? boddurci_open_files(words[2], BODDURCI_NO_WAIT, &fault) : NULL;
    if (base == NULL || store(base, "1") != 0) {
        fprintf(stderr, "c_hostile: %s\n", fault.text);
        return 4;
    }
    if (count == 3 && strcmp(words[1], "fork") == 0)
        return forks(base);
    return meddle(words, count) == 0 ? save(base) : 4;
}
