// The editor's command `lexicon check` beside the library's calls alone, on a list of headwords.
#define _GNU_SOURCE // wait4
#include "bench.h"

#include <fcntl.h>
#include <spawn.h>
#include <stdio.h>
#include <stdlib.h>
#include <string.h>
#include <sys/resource.h>
#include <sys/wait.h>
#include <unistd.h>

#include "lexicon.h"
#include "timing.h"

static const char WHAT[] = "`lexicon check`, a line";
static const char COMMAND[] = "target/cli/release/lexicon";

extern char **environ;

struct list {
    const char *path;
    const uint8_t *bytes;
    size_t length, lines;
};

static struct list read_list(const char *path)
{
    FILE *file = fopen(path, "rb");
    if (!file || fseek(file, 0, SEEK_END))
        fail(WHAT, path, "can't be read");
    struct list list = {path, NULL, (size_t)ftell(file), 0};
    uint8_t *bytes = malloc(list.length);
    rewind(file);
    if (!bytes || fread(bytes, 1, list.length, file) != list.length)
        fail(WHAT, path, "can't be read");
    fclose(file);
    for (size_t i = 0; i < list.length; i++)
        list.lines += bytes[i] == '\n';
    list.bytes = bytes;
    return list;
}

// How many lines the library accepts.
static size_t call_library(const struct list *list)
{
    const uint8_t *line = list->bytes, *end = line + list->length;
    uint8_t record[LEXICON_RECORD];
    size_t numbering[LEXICON_LIMIT], answer[LEXICON_ANSWER], accepted = 0;
    while (line < end) {
        const uint8_t *feed = memchr(line, '\n', (size_t)(end - line));
        accepted += !lexicon_write_record(line, (size_t)(feed - line), 0, record, sizeof record, numbering, answer);
        line = feed + 1;
    }
    return accepted;
}

static void run_library(const void *input, uint64_t turns)
{
    while (turns--)
        call_library(input);
}

// Returns the most memory that the command had, in bytes.
static size_t run_once(const struct list *list, const char *output)
{
    posix_spawn_file_actions_t actions;
    posix_spawn_file_actions_init(&actions);
    posix_spawn_file_actions_addopen(&actions, STDOUT_FILENO, output, O_WRONLY | O_CREAT | O_TRUNC, 0666);
    char *arguments[] = {(char *)COMMAND, "check", (char *)list->path, NULL};
    pid_t child;
    int status;
    struct rusage used;
    if (posix_spawn(&child, COMMAND, &actions, NULL, arguments, environ) || wait4(child, &status, 0, &used) != child)
        fail(WHAT, COMMAND, "can't be run");
    posix_spawn_file_actions_destroy(&actions);
    if (!WIFEXITED(status) || WEXITSTATUS(status) > 1)
        fail(WHAT, COMMAND, "failed");
    return (size_t)used.ru_maxrss * 1024;
}

static void run_command(const void *input, uint64_t turns)
{
    while (turns--)
        run_once(input, "/dev/null");
}

struct found {
    size_t figures, memory;
};

// The command's last line must tell as many lines accepted, and no more, as the library accepts.
static struct found check_command(const struct list *list)
{
    static const char OUTPUT[] = "target/headwords.found";
    struct found found = {0, run_once(list, OUTPUT)};
    size_t lines = 0, accepted = 0, refused = 1;
    char line[4096];
    FILE *file = fopen(OUTPUT, "r");
    while (file && fgets(line, sizeof line, file))
        sscanf(line, "%zu lines: %zu accepted, %zu refused; %zu figures", &lines, &accepted, &refused, &found.figures);
    if (!file || lines != list->lines || accepted != call_library(list) || accepted + refused != lines)
        fail(WHAT, list->path, "the command and the library tell something else");
    fclose(file);
    return found;
}

void command_row(const char *path)
{
    struct list list = read_list(path);
    struct found found = check_command(&list);
    char text[128];
    snprintf(text, sizeof text, "%zu lines, %zu figures of up to 6 nodes; %zu bytes of memory a line", list.lines, found.figures,
             found.memory / list.lines);
    put_row(&(struct row){WHAT, text, {run_command, &list}, {run_library, &list}, "the library's calls alone", (double)list.lines});
    free((void *)list.bytes);
}
