/*
 * What cudf_check.ml calls: the call of cudf_check.h on strings and bytes of OCaml's, answered by a pair of the status and the
 * report's length.
 *
 * OCaml's runtime isn't released during a call: the library reads the strings in place, and a collection in another thread
 * would move them.
 */
#include "cudf_check.h"

#define CAML_NAME_SPACE
#include <caml/alloc.h>
#include <caml/mlvalues.h>

#include <stdlib.h>

static cudf_check_text text_of(value strings, size_t at)
{
    if (at >= Wosize_val(strings))
        return cudf_check_text_of(NULL, 0);
    return cudf_check_text_of(String_val(Field(strings, at)), caml_string_length(Field(strings, at)));
}

value cudf_check_ocaml_run(value words, value texts, value names, value report)
{
    size_t word_count = Wosize_val(words), count = Wosize_val(texts), length = 0;
    cudf_check_text *line = malloc((word_count + 1) * sizeof *line);
    cudf_check_document *documents = malloc((count + 1) * sizeof *documents);
    uint8_t status = CUDF_CHECK_MEMORY;
    if (line && documents) {
        for (size_t at = 0; at < word_count; at++)
            line[at] = text_of(words, at);
        for (size_t at = 0; at < count; at++) {
            documents[at].text = text_of(texts, at);
            documents[at].name = text_of(names, at);
        }
        status = cudf_check_run(line, word_count, documents, count, Bytes_val(report), caml_string_length(report), &length);
    }
    free(line);
    free(documents);
    /* this may move what OCaml has, so it comes last */
    value pair = caml_alloc_small(2, 0);
    Field(pair, 0) = Val_int(status);
    Field(pair, 1) = Val_long(length);
    return pair;
}
