/* Prints whom to page at each event of a feed: page RULE <FEED */
#include <stdio.h>

#include "meadwhistle.h"

int main(int argc, char **argv)
{
    uint8_t rule[8193]; /* no file that is accepted is longer than 8,192 bytes */
    FILE *file = argc == 2 ? fopen(argv[1], "rb") : NULL;
    if (file == NULL) {
        fputs("usage: page RULE <FEED\n", stderr);
        return 2;
    }
    size_t rule_len = fread(rule, 1, sizeof rule, file);
    fclose(file);

    meadwhistle_desk desk = meadwhistle_desk_empty();
    uint8_t number = meadwhistle_desk_open(&desk, rule, rule_len);
    if (number != 0) {
        fprintf(stderr, "refused %d\n", number);
        return 1;
    }
    for (int event; (event = getchar()) != EOF;) {
        meadwhistle_reply reply = meadwhistle_desk_step(&desk, (uint8_t)event);
        for (int recipient = 0; recipient < 16; recipient++)
            if (reply.notices >> recipient & 1)
                printf("%02x: page recipient %d\n", (unsigned)event, recipient);
    }
}
