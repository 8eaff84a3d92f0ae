#include "width.h"

#include "layout.h"

int is_full_width(uint16_t character)
{
    return character >= 0xFF01 && character <= 0xFF5E;
}

uint16_t replaced(uint16_t character)
{
    return is_full_width(character) ? character - 0xFEE0 : character;
}

int has_lone_form(const uint16_t *index)
{
    for (size_t i = 0; i < index[1]; i++) {
        const uint16_t *line = index + line_start(i);
        if (line[0] == 1 && is_full_width(line[1]))
            return 1;
    }
    return 0;
}
