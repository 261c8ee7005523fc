/* A plain look-up in a usb.ids list, to compare with: the name of the first such device, line by line to the end of the list. */
#define _GNU_SOURCE
#include <ctype.h>
#include <stdio.h>
#include <stdlib.h>
#include <string.h>
#include <strings.h>

/* four digits and two spaces */
static int is_entry(const char *line)
{
    for (int i = 0; i < 4; i++)
        if (!isxdigit((unsigned char)line[i]))
            return 0;
    return line[4] == ' ' && line[5] == ' ';
}

int main(int argc, char **argv)
{
    FILE *file = argc == 4 ? fopen(argv[1], "r") : NULL;
    char *line = NULL, *name = NULL;
    size_t room = 0;
    ssize_t length;
    int under = 0;
    if (!file)
        return 1;
    while ((length = getline(&line, &room, file)) > 0) {
        while (length > 0 && strchr(" \t\r\n", line[length - 1]))
            line[--length] = '\0';
        if (length == 0 || line[0] == '#')
            continue;
        if (line[0] != '\t')
            under = is_entry(line) && strncasecmp(line, argv[2], 4) == 0;
        else if (under && !name && is_entry(line + 1) && strncasecmp(line + 1, argv[3], 4) == 0)
            name = strdup(line + 7);
    }
    if (!name)
        return 2;
    puts(name);
    return 0;
}
