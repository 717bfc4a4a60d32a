/* A shared library that loads a document before the constructor of libyaml-0.so.2 has run, for libyaml_calls.c. */
#include <string.h>
#include <yaml.h>

/* The nodes of that document, which is a list of 31 items; 0 if there is an error. */
long nodes_of_constructor;

__attribute__((constructor)) static void load(void)
{
    char text[80] = "[";
    yaml_parser_t parser;
    yaml_document_t document;

    for (int i = 0; i < 31; i++)
        strcat(text, "a,");
    strcat(text, "]");
    if (!yaml_parser_initialize(&parser))
        return;
    yaml_parser_set_input_string(&parser, (const unsigned char *)text, strlen(text));
    if (yaml_parser_load(&parser, &document)) {
        nodes_of_constructor = document.nodes.top - document.nodes.start;
        yaml_document_delete(&document);
    }
    yaml_parser_delete(&parser);
}
