/* All tokens of standard input, for programs in C and in Rust: `yaml_token_t` is laid out alike in both. */
#include "../scripts/parts/lines/read_tokens.h"

size_t size_of_token(void)
{
    return sizeof(yaml_token_t);
}

size_t read_tokens(yaml_token_t **tokens)
{
    size_t count = 0, room = 64;
    yaml_token_t *list = malloc(room * sizeof *list);

    while (list != NULL && next_token(&list[count]))
        if (++count == room)
            list = realloc(list, (room *= 2) * sizeof *list);
    if (list == NULL)
        quit("out of memory");
    *tokens = list;
    return count;
}
