/*
 * The environment. A guest is given arguments alone, so they may begin with one: words NAME=VALUE and then the word --, as in
 *
 *     nested go program -- TZ=UTC LANG=C -- one two
 *
 * Where no word -- comes behind such words, or no such word before it, all of them are the program's own arguments. A host may have an environment
 * too, in a file: its words stand behind these, so that these are found first.
 */
#include "call.h"
#include "host.h"

#include <ctype.h>
#include <string.h>

extern char **environ;

static int is_setting(const char *word)
{
    if (!isalpha((unsigned char)*word) && *word != '_')
        return 0;
    while (isalnum((unsigned char)*word) || *word == '_')
        word++;
    return *word == '=';
}

/* The list stays where the loader put it: the settings move to its front and end in a zero, and the name takes the place of the word --. */
static int take_settings(int *argc, char ***argv)
{
    char **words = *argv, *name = words[0];
    int settings = 0;
    while (settings + 1 < *argc && is_setting(words[settings + 1]))
        settings++;
    if (settings == 0 || settings + 1 == *argc || strcmp(words[settings + 1], "--") != 0)
        return 0;
    environ = words;
    memmove(words, words + 1, (size_t)settings * sizeof *words);
    words[settings] = 0;
    words[settings + 1] = name;
    *argc -= settings + 1;
    *argv += settings + 1;
    return settings;
}

/* How many texts, each with a zero behind it, begin in so many bytes. */
static int texts_in(const char *bytes, long count)
{
    int texts = 0;
    for (long i = 0; i < count; i++)
        texts += bytes[i] == 0;
    return texts;
}

/* Memory behind the heap's break, or 0. It does not come from malloc, which many programs have no need of. */
static void *take(long bytes)
{
    long before = nested_call(CALL_SBRK, bytes, 0, 0);
    return before < 0 ? 0 : (void *)before;
}

/* Puts the host's words behind the settings, in memory from the heap's start: a list, and the texts behind it. */
static void add_host_words(int settings)
{
    unsigned char status[1];
    long most = 4096, got = nested_host_read(HOST_ENVIRONMENT, status, sizeof status);
    char *room = 0, **list;
    int texts;
    if (got <= 0)
        return;
    do {                                /* until there is room for all */
        most *= 4;
        room = take(most);
        if (room == 0)
            return;
        got = nested_host_read(HOST_ENVIRONMENT, room, (size_t)most);
    } while (got == most);
    texts = got > 0 ? texts_in(room, got) : 0;
    list = texts > 0 ? take((settings + texts + 1) * (long)sizeof *list) : 0;
    if (list == 0)
        return;
    memcpy(list, environ, (size_t)settings * sizeof *list);
    for (int i = 0; i < texts; i++, room += strlen(room) + 1)
        list[settings + i] = room;
    list[settings + texts] = 0;
    environ = list;
}

void nested_environment(int *argc, char ***argv)
{
    add_host_words(take_settings(argc, argv));
}
