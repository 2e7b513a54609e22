/* The words of a command: a verb, its options, its numbers and its files. Options may stand anywhere behind the verb,
 * up to `--`. */
#include "help.h"
#include "output.h"
#include "signals.h"
#include "task.h"

/* The options, each a bit, so that a verb says which of them it takes. */
enum option {
    OPTION_F = 1,
    OPTION_H = 2,
    OPTION_Q = 4,
    OPTION_T = 8,
    OPTION_J = 16,
    OPTION_AS_ONE = 32,
    OPTION_PLOT = 64,
    OPTION_EMPTY = 128,
    OPTION_ROWS = 256,
    OPTION_SPLIT = 512,
    OPTION_WITH = 1024,
    OPTION_N = 2048
};

struct named_option {
    const char *name;
    enum option option;
    bool has_value;
};

static const struct named_option options[] = {
    {"-f", OPTION_F, false},
    {"-n", OPTION_N, false},
    {"-H", OPTION_H, false},
    {"-q", OPTION_Q, false},
    {"-t", OPTION_T, false},
    {"-j", OPTION_J, true},
    {"--as-one", OPTION_AS_ONE, false},
    {"--plot", OPTION_PLOT, false},
    {"--empty", OPTION_EMPTY, false},
    {"--rows", OPTION_ROWS, true},
    {"--split", OPTION_SPLIT, true},
    {"--with", OPTION_WITH, false},
};
enum { OPTIONS = sizeof(options) / sizeof(options[0]) };

struct verb_words {
    const char *name;
    unsigned takes;
};

static const struct verb_words verbs[VERBS] = {
    [CHECK] = {"check", OPTION_H | OPTION_J | OPTION_AS_ONE},
    [SHOW] = {"show", OPTION_H | OPTION_J | OPTION_PLOT},
    [ROWS] = {"rows", OPTION_H | OPTION_J | OPTION_T | OPTION_AS_ONE},
    [ROW] = {"row", OPTION_H | OPTION_J | OPTION_AS_ONE},
    [FIND] = {"find", OPTION_H | OPTION_J | OPTION_Q | OPTION_AS_ONE | OPTION_WITH},
    [WRITE] = {"write", OPTION_F | OPTION_EMPTY | OPTION_ROWS | OPTION_SPLIT},
    [REWRITE] = {"rewrite", OPTION_F},
    [RENUMBER] = {"renumber", OPTION_F | OPTION_N},
    [CANONICAL] = {"canonical", OPTION_H | OPTION_J},
    [CHANGES] = {"changes", 0},
};

/* The words as they are read: which one is next, whether `--` was read, and the words that are no options. */
struct reading {
    struct task *task;
    char **words;
    size_t count, next;
    bool only_files;
    unsigned given;
};

/* ---- complaints */

/* A complaint with a word in it, and where the usage is. The program ends. */
static void wrong(const char *before, const char *word, const char *behind, const char *verb)
{
    struct bytes line;
    bytes_begin(&line);
    bytes_text(&line, before);
    if (word != NULL) {
        bytes_text(&line, "'");
        bytes_name(&line, word);
        bytes_text(&line, "'");
    }
    bytes_text(&line, behind);
    bytes_text(&line, "; 'columns help");
    bytes_text(&line, verb == NULL ? "" : " ");
    bytes_text(&line, verb == NULL ? "" : verb);
    bytes_text(&line, "' prints the usage");
    complain_text(bytes_as_text(&line));
    leave(2);
}

static const char *name_of(const struct reading *reading)
{
    return verbs[reading->task->verb].name;
}

static void wrong_use(const struct reading *reading, const char *sentence)
{
    wrong(sentence, NULL, "", name_of(reading));
}

/* The number that a word is. `what` says what it is for. */
static uint64_t number_in(const struct reading *reading, const char *what, const char *word)
{
    uint64_t number;
    size_t place;
    switch (number_of(word, strlen(word), &number, &place)) {
    case READ_NUMBER: return number;
    case READ_LARGE:
        wrong(what, word, ", a number that is too large; the largest is 18446744073709551615", name_of(reading));
        break;
    default: wrong(what, word, ", which is no number", name_of(reading));
    }
    return 0;
}

/* ---- options */

static void add_word(char ***list, size_t *count, char *word)
{
    *list = room_again(*list, *count + 1, sizeof(char *));
    (*list)[(*count)++] = word;
}

static void set_option(struct reading *reading, enum option option, const char *value)
{
    struct task *task = reading->task;
    reading->given |= option;
    switch (option) {
    case OPTION_F: task->force = true; break;
    case OPTION_N: task->is_dry = true; break;
    case OPTION_H: task->is_named = true; break;
    case OPTION_Q: task->is_quiet = true; break;
    case OPTION_T: task->is_tabbed = true; break;
    case OPTION_AS_ONE: task->is_as_one = true; break;
    case OPTION_PLOT: task->is_plotted = true; break;
    case OPTION_EMPTY: task->may_be_empty = true; break;
    case OPTION_SPLIT: task->prefix = value; break;
    case OPTION_WITH: break;
    case OPTION_ROWS:
        task->has_count = true;
        task->count = number_in(reading, "--rows takes how many rows there have to be, and was given ", value);
        break;
    case OPTION_J:
        task->jobs = number_in(reading, "-j takes how many files are worked on at once, and was given ", value);
        if (task->jobs < 1 || task->jobs > 1024)
            wrong("-j takes a number from 1 to 1024, and was given ", value, "", name_of(reading));
        break;
    }
}

/* Whether a word is that option; `value` is what stands behind it in the same word, as in -j4 and --rows=4, or null. */
static bool is_option(const struct named_option *option, const char *word, const char **value)
{
    size_t length = strlen(option->name);
    *value = NULL;
    if (strcmp(option->name, word) == 0)
        return true;
    if (!option->has_value || strncmp(option->name, word, length) != 0)
        return false;
    if (option->name[1] != '-')
        *value = word + length;
    else if (word[length] == '=')
        *value = word + length + 1;
    return *value != NULL;
}

static void read_option(struct reading *reading, const char *word)
{
    const char *value;
    for (size_t i = 0; i < OPTIONS; i++) {
        if (!is_option(&options[i], word, &value))
            continue;
        if ((verbs[reading->task->verb].takes & options[i].option) == 0)
            wrong("", word, " is no option of this verb", name_of(reading));
        if (options[i].has_value && value == NULL) {
            if (reading->next == reading->count)
                wrong("", word, " takes a word behind it", name_of(reading));
            value = reading->words[reading->next++];
        }
        set_option(reading, options[i].option, value);
        return;
    }
    wrong(
        "there is no option ", word, "; a file of that name is said with ./ before it, or behind --", name_of(reading));
}

/* Options are set, and all other words are gathered: those behind --with apart. */
static void read_words(struct reading *reading)
{
    struct task *task = reading->task;
    while (reading->next < reading->count) {
        char *word = reading->words[reading->next++];
        if (reading->only_files || word[0] != '-' || word[1] == 0) {
            if (reading->given & OPTION_WITH)
                add_word(&task->with, &task->with_count, word);
            else
                add_word(&task->files, &task->file_count, word);
        } else if (strcmp(word, "--") == 0) {
            reading->only_files = true;
        } else if (strcmp(word, "-h") == 0 || strcmp(word, "--help") == 0) {
            help_of(name_of(reading));
            leave(0);
        } else {
            read_option(reading, word);
        }
    }
}

/* ---- numbers and files */

static bool is_number(const char *word)
{
    uint64_t number;
    size_t place;
    enum read_as as = number_of(word, strlen(word), &number, &place);
    return as == READ_NUMBER || as == READ_LARGE;
}

/* Takes the first word from the files, as a number. */
static uint64_t take_number(struct reading *reading, const char *what)
{
    struct task *task = reading->task;
    uint64_t number = number_in(reading, what, task->files[0]);
    memmove(task->files, task->files + 1, (task->file_count - 1) * sizeof(char *));
    task->file_count--;
    task->given++;
    return number;
}

static void turned_round(const struct reading *reading)
{
    if (reading->task->given == 2 && reading->task->second < reading->task->first)
        wrong_use(reading, "the first number is above the second; say the lower one first");
}

static void read_find(struct reading *reading)
{
    struct task *task = reading->task;
    if (task->file_count < 3)
        wrong_use(reading, "'find' takes two numbers and then files");
    task->first = take_number(reading, "'find' takes two numbers and then files: the first word is ");
    task->second = take_number(reading, "'find' takes two numbers and then files: the second word is ");
    turned_round(reading);
    if ((reading->given & OPTION_WITH) == 0)
        return;
    if (task->with_count == 0)
        wrong_use(reading, "'--with' takes files behind it");
    if (task->file_count != 1 || task->is_as_one)
        wrong_use(reading, "with '--with' one file is searched, and its rows are looked up in the files behind it");
}

static void read_row(struct reading *reading)
{
    struct task *task = reading->task;
    if (task->file_count >= 1 && !is_number(task->files[0]) && is_number(task->files[task->file_count - 1]))
        wrong_use(reading, "'row' takes the row first, and then files");
    if (task->file_count < 2)
        wrong_use(reading, "'row' takes the number of a row, and then files");
    task->first = take_number(reading, "'row' takes the number of a row and then files: the first word is ");
}

/* At most two numbers stand in front. A file whose name is a number is said with ./ before it. */
static void read_rows(struct reading *reading)
{
    struct task *task = reading->task;
    if (task->file_count >= 1 && is_number(task->files[0]))
        task->first = take_number(reading, "'rows' takes rows first: the first word is ");
    if (task->given == 1 && task->file_count >= 1 && is_number(task->files[0]))
        task->second = take_number(reading, "'rows' takes rows first: the second word is ");
    for (size_t i = 0; i < task->file_count; i++)
        if (is_number(task->files[i]))
            wrong("'rows' takes at most two rows first, and then files: ", task->files[i],
                " stands behind them, and a file of that name is said with ./ before it", "rows");
    turned_round(reading);
    if (task->file_count < 1)
        wrong_use(reading, "'rows' takes files, and the numbers of at most two rows before them");
    if (task->is_tabbed && (task->is_as_one || (reading->given & OPTION_H)))
        wrong_use(reading, "'-t' lays files side by side, which goes with neither '--as-one' nor '-H'");
}

/* The name of a new file. */
static void is_no_input(struct reading *reading, const char *name)
{
    if (strcmp(name, "-") == 0)
        wrong_use(reading, "'-' is standard input, and no name of a new file; say './-' for a file of that name");
}

static void read_new_file(struct reading *reading)
{
    struct task *task = reading->task;
    size_t wanted = task->verb == REWRITE ? 2 : task->prefix != NULL ? 0 : 1;
    if (task->file_count != wanted)
        wrong_use(reading, task->verb == REWRITE ? "'rewrite' takes a file and the name of a new one"
                           : task->prefix != NULL
                               ? "'write --split' takes the front of the names, and no other"
                               : "'write' takes the name of a file, and the numbers on standard input");
    is_no_input(reading, task->prefix != NULL ? task->prefix : task->files[wanted - 1]);
}

static void read_renumber(struct reading *reading)
{
    struct task *task = reading->task;
    if (task->is_dry && task->force)
        wrong_use(reading, "'-n' writes nothing, so '-f' does not go with it");
    if (task->file_count != (task->is_dry ? 1 : 2))
        wrong_use(reading, task->is_dry ? "'renumber -n' takes a file, and the pairs on standard input"
                                        : "'renumber' takes a file and the name of a new one, and the pairs on standard input");
    if (strcmp(task->files[0], "-") == 0)
        wrong_use(reading, "'-' is standard input, which has the pairs; say './-' for a file of that name");
    is_no_input(reading, task->files[task->file_count - 1]);
}

/* Standard input can be read once. */
static void count_inputs(struct reading *reading)
{
    struct task *task = reading->task;
    size_t inputs = 0;
    for (size_t i = 0; i < task->file_count; i++)
        inputs += strcmp(task->files[i], "-") == 0;
    for (size_t i = 0; i < task->with_count; i++)
        inputs += strcmp(task->with[i], "-") == 0;
    if (inputs > 1)
        wrong_use(reading, "'-' is standard input, which can be read once");
}

static void read_verb(struct task *task, const char *word)
{
    for (size_t i = 0; i < VERBS; i++) {
        if (strcmp(verbs[i].name, word) == 0) {
            task->verb = (enum verb)i;
            return;
        }
    }
    if (word[0] == '-')
        wrong("", word, " stands before the verb; options stand behind it", NULL);
    wrong("there is no verb ", word, "", NULL);
}

/* Words that ask for help or the version. */
static void read_help(int count, char **words)
{
    const char *first = count < 2 ? "" : words[1];
    if (count < 2) {
        help_is_missing();
        leave(2);
    }
    if (strcmp(first, "--version") == 0) {
        help_version();
        leave(0);
    }
    if (strcmp(first, "help") != 0 && strcmp(first, "-h") != 0 && strcmp(first, "--help") != 0)
        return;
    if (count > 3)
        wrong("'help' takes one verb", NULL, "", NULL);
    if (count == 3 && !help_is_there(words[2]))
        wrong("there is no verb ", words[2], "", NULL);
    help_of(count == 3 ? words[2] : "");
    leave(0);
}

void task_read(struct task *task, int count, char **words)
{
    struct reading reading = {.task = task, .words = words, .count = (size_t)count, .next = 2};
    read_help(count, words);
    *task = (struct task){.jobs = 1, .files = room_for(1, sizeof(char *)), .with = room_for(1, sizeof(char *))};
    read_verb(task, words[1]);
    read_words(&reading);
    switch (task->verb) {
    case FIND: read_find(&reading); break;
    case ROW: read_row(&reading); break;
    case ROWS: read_rows(&reading); break;
    case WRITE:
    case REWRITE: read_new_file(&reading); break;
    case RENUMBER: read_renumber(&reading); break;
    case CHANGES:
        if (task->file_count != 2)
            wrong_use(&reading, "'changes' takes two files");
        break;
    default:
        if (task->file_count < 1)
            wrong_use(&reading, "this verb takes files");
    }
    count_inputs(&reading);
    task->is_named = task->is_named || (task->file_count > 1 && !task->is_as_one);
}
