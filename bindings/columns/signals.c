/* Signals, and the end of the program. */
#include "signals.h"

/* All signals that would end the program and do not come from a fault of its own: those of a person, a shell or a
 * system, and those that are free to use. */
static bool is_caught(int number)
{
    static const int some[] = {SIGHUP, SIGINT, SIGQUIT, SIGUSR1, SIGUSR2, SIGPIPE, SIGALRM, SIGTERM, SIGSTKFLT, SIGXCPU,
        SIGVTALRM, SIGPROF, SIGIO, SIGPWR};
    for (size_t i = 0; i < sizeof(some) / sizeof(some[0]); i++)
        if (some[i] == number)
            return true;
    return number >= SIGRTMIN && number <= SIGRTMAX;
}

/* The set of them. */
static void add_caught(sigset_t *set)
{
    sigemptyset(set);
    for (int number = 1; number <= SIGRTMAX; number++)
        if (is_caught(number))
            sigaddset(set, number);
}

static int temporary_folder;
static const char *volatile temporary_name;

static void remove_temporary(void)
{
    const char *name = temporary_name;
    temporary_name = NULL;
    if (name != NULL)
        unlinkat(temporary_folder, name, 0);
}

/* Only calls that a handler may make. */
static void on_signal(int number)
{
    struct sigaction usual = {.sa_handler = SIG_DFL};
    sigset_t this;
    remove_temporary();
    sigaction(number, &usual, NULL);
    sigemptyset(&this);
    sigaddset(&this, number);
    raise(number);
    pthread_sigmask(SIG_UNBLOCK, &this, NULL);
    _exit(128 + number);
}

void signals_begin(void)
{
    struct sigaction ours = {.sa_handler = on_signal}, ignore = {.sa_handler = SIG_IGN}, was;
    add_caught(&ours.sa_mask);
    /* What the caller has ignored, as nohup does, stays ignored. */
    for (int number = 1; number <= SIGRTMAX; number++)
        if (is_caught(number) && sigaction(number, NULL, &was) == 0 && was.sa_handler != SIG_IGN)
            sigaction(number, &ours, NULL);
    /* A file that becomes longer than is allowed here is then a write that fails. */
    sigaction(SIGXFSZ, &ignore, NULL);
}

/* The signals that were held before we held any: they stay so. */
static sigset_t held_before;
static bool held, for_good;

void signals_hold(void)
{
    sigset_t set;
    if (held)
        return;
    add_caught(&set);
    pthread_sigmask(SIG_BLOCK, &set, &held_before);
    held = true;
}

void signals_hold_for_good(void)
{
    signals_hold();
    for_good = true;
}

void signals_release(void)
{
    if (for_good)
        return;
    if (held)
        pthread_sigmask(SIG_SETMASK, &held_before, NULL);
    held = false;
}

void temporary_is(int folder, const char *name)
{
    temporary_folder = folder;
    temporary_name = name;
}

void leave(int status)
{
    signals_hold();
    remove_temporary();
    _exit(status);
}
