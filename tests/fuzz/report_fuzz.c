/* The fuzz target for the report program, which the variable REPORT names: for any bytes it must print what the second
   program's player prints, and end with 0. It runs as a process of its own; the fuzzer is led by what the player does. */
#include "player.h"
#include "promise.h"

#include <spawn.h>
#include <string.h>
#include <sys/types.h>
#include <sys/wait.h>
#include <unistd.h>

enum { LONGEST_REPORT = 4000000 };

/* Files for the input, for what is expected and for what the program printed. */
static FILE *input, *expected, *printed;

int LLVMFuzzerInitialize(int *argc, char ***argv);
int LLVMFuzzerTestOneInput(const uint8_t *data, size_t size);

/* Empties a file and goes to its start. */
static void empty(FILE *file)
{
    rewind(file);
    promise(ftruncate(fileno(file), 0) == 0, "a file is emptied");
}

/* Reads a file from its start, past any buffer of ours: another process may have written it. Answers its length. */
static size_t content(FILE *file, char *into)
{
    ssize_t length = pread(fileno(file), into, LONGEST_REPORT, 0);

    promise(length >= 0 && length < LONGEST_REPORT, "a file is read whole");
    return (size_t)length;
}

/* Whether two files hold the same. */
static int same(FILE *one, FILE *other)
{
    static char a[LONGEST_REPORT], b[LONGEST_REPORT];
    size_t length = content(one, a);

    return content(other, b) == length && memcmp(a, b, length) == 0;
}

/* Runs the report program from input to printed; answers its exit status. */
static int run_report(char *program)
{
    char *arguments[2] = {program, NULL}, *nothing[1] = {NULL};
    posix_spawn_file_actions_t lines;
    pid_t child = 0;
    int status = 0;

    promise(posix_spawn_file_actions_init(&lines) == 0 && posix_spawn_file_actions_adddup2(&lines, fileno(input), 0) == 0 &&
                posix_spawn_file_actions_adddup2(&lines, fileno(printed), 1) == 0,
            "the program's input and output are set");
    promise(posix_spawn(&child, program, &lines, NULL, arguments, nothing) == 0, "the program starts");
    promise(waitpid(child, &status, 0) == child && WIFEXITED(status), "the program ends");
    posix_spawn_file_actions_destroy(&lines);
    return WEXITSTATUS(status);
}

int LLVMFuzzerInitialize(int *argc, char ***argv)
{
    (void)argc;
    (void)argv;
    input = tmpfile();
    expected = tmpfile();
    printed = tmpfile();
    promise(input != NULL && expected != NULL && printed != NULL, "files are at hand");
    promise(getenv("REPORT") != NULL, "a program is named");
    return 0;
}

int LLVMFuzzerTestOneInput(const uint8_t *data, size_t size)
{
    static player p;

    p.text_length = size < sizeof p.text ? size : sizeof p.text;
    memcpy(p.text, data, p.text_length);
    empty(input);
    empty(expected);
    empty(printed);
    promise(fwrite(data, 1, size, input) == size && fflush(input) == 0, "the input is written");
    promise(lseek(fileno(input), 0, SEEK_SET) == 0, "the input is read from its start");
    promise(player_report(&p, expected) && fflush(expected) == 0, "the player plays");
    promise(run_report(getenv("REPORT")) == 0, "the program ends with 0");
    promise(same(expected, printed), "the program prints the player's report");
    return 0;
}
