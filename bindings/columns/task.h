/* What is asked: the words of a command, read once, before anything is done. */
#ifndef COLUMNS_TASK_H
#define COLUMNS_TASK_H

#include "room.h"

enum verb { CHECK, SHOW, ROWS, ROW, FIND, WRITE, REWRITE, RENUMBER, CANONICAL, CHANGES, VERBS };

struct task {
    enum verb verb;
    bool force;        /* -f */
    bool is_dry;       /* -n */
    bool is_named;     /* -H, or several files: each line begins with the file's name */
    bool is_quiet;     /* -q */
    bool is_tabbed;    /* -t */
    bool is_as_one;    /* --as-one */
    bool is_plotted;   /* --plot */
    bool may_be_empty; /* --empty */
    bool has_count;    /* --rows N */
    uint64_t count;
    uint64_t jobs;          /* -j N */
    const char *prefix;     /* --split PREFIX, or null */
    uint64_t first, second; /* the numbers in front of the files, */
    size_t given;           /* and how many of them were given */
    char **files;
    size_t file_count;
    char **with; /* --with FILE.. */
    size_t with_count;
};

/* Reads the words. Where they ask for help or the version, or cannot be, that is said and the program ends. */
void task_read(struct task *task, int count, char **words);

#endif
