/* Plays a capture's file through the door: prints its report, or writes its wire record. */
#include "player.h"

#include <string.h>

/* Reads a file whole, or as much of it as shows that it is too long; - is standard input. */
static int take_text(player *p, const char *name)
{
    FILE *file = strcmp(name, "-") == 0 ? stdin : fopen(name, "rb");

    if (file == NULL)
        return 0;
    p->text_length = fread(p->text, 1, sizeof p->text, file);
    if (ferror(file))
        return 0;
    if (file != stdin)
        fclose(file);
    return 1;
}

/* report FILE, or wire FILE; - is standard input. */
int main(int argc, char **argv)
{
    static player p;
    int as_record = argc == 3 && strcmp(argv[1], "wire") == 0;

    if (argc != 3 || (!as_record && strcmp(argv[1], "report") != 0)) {
        fprintf(stderr, "usage: capture report|wire FILE\n");
        return 2;
    }
    if (!take_text(&p, argv[2]) || !(as_record ? player_record(&p, stdout) : player_report(&p, stdout))) {
        fprintf(stderr, "capture: %s cannot be read or played\n", argv[2]);
        return 1;
    }
    return fflush(stdout) == 0 ? 0 : 1;
}
