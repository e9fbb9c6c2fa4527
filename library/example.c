/* Checks the program texts that are named, and says what is wrong with them.
 *
 *     gcc example.c -lmultiscalar -o example && ./example a.s b.s */
#include <multiscalar.h>
#include <stdio.h>
#include <stdlib.h>

static multiscalar_text read_file(const char *name) {
    FILE *file = fopen(name, "rb");
    char *bytes = NULL;
    size_t length = 0, room = 0, more;
    if (!file) {
        perror(name);
        exit(2);
    }
    do {
        if (room - length < 4096 && !(bytes = realloc(bytes, room = 2 * room + 65536))) exit(2);
        more = fread(bytes + length, 1, room - length, file);
        length += more;
    } while (more);
    fclose(file);
    return (multiscalar_text){bytes, length};
}

int main(int count, char **names) {
    int worst = 0;
    for (int i = 1; i < count; i++) {
        multiscalar_text program = read_file(names[i]);
        char *answer;
        size_t length;
        int status = multiscalar_explain(names[i], program, NULL, multiscalar_no_text, false,
                                         MULTISCALAR_EXPLAIN_TEXT, &answer, &length);
        if (answer) fwrite(answer, 1, length, stdout);
        if (status > worst) worst = status;
        multiscalar_free(answer);
        free((void *)program.bytes);
    }
    return worst > 3 ? 2 : worst;
}
