#include "config.h"

#include <errno.h>
#include <stdio.h>
#include <string.h>

#include "complain.h"

enum { MOST_WORDS = 4, MOST_LINE = 512, MOST_WHERE = 320 };

/* splits the line where it stands; so many words, at most MOST_WORDS */
static int split(char *line, char *words[MOST_WORDS])
{
    static const char gaps[] = " \t\r\n";
    int count = 0;

    line[strcspn(line, "#")] = '\0';
    for (char *rest = NULL, *w = strtok_r(line, gaps, &rest); w != NULL && count < MOST_WORDS;
         w = strtok_r(NULL, gaps, &rest))
        words[count++] = w;
    return count;
}

static void take_line(struct options *o, const char *where, char *line)
{
    char *words[MOST_WORDS];
    int count = split(line, words);

    if (count == 0)
        return;
    if (count == 2 && strcmp(words[0], "ring") == 0)
        options_ring(o, where, words[1]);
    else if (count == 3 && strcmp(words[0], "member") == 0)
        members_add(&o->members, where, words[1], words[2]);
    else
        fail(EXIT_USAGE, "%s: a line is 'ring N' or 'member ID ADDRESS:PORT'", where);
}

void config_read(struct options *o, const char *path)
{
    FILE *file = fopen(path, "r");
    char line[MOST_LINE], where[MOST_WHERE];

    if (file == NULL)
        fail(EXIT_USAGE, "%s can't be opened: %s", path, strerror(errno));
    for (unsigned n = 1; fgets(line, sizeof line, file) != NULL; n++) {
        snprintf(where, sizeof where, "%s, line %u", path, n);
        if (strlen(line) == sizeof line - 1)
            fail(EXIT_USAGE, "%s: the line is too long", where);
        take_line(o, where, line);
    }
    if (ferror(file))
        fail(EXIT_USAGE, "%s can't be read: %s", path, strerror(errno));
    fclose(file);
}
