/* The program of the small repository of scripts/controls: it prints what one read gives of its input. If its one
   request for memory is refused it prints nothing, and says nothing of it. Asked for a test, it makes the request or
   none. */
#include <stdlib.h>
#include <string.h>
#include <unistd.h>
#define TESTS "writing::headers_announced_and_patched: test\nreading::truth_values: test\nerrors::wrong: test\n"
int main(int count, char **words) {
    char octets[64];
    if (count > 1 && !strcmp(words[1], "--list")) return write(1, TESTS, strlen(TESTS)) < 0;
    if (count > 1 && !strncmp(words[1], "writing", 7)) return 0;
    void *volatile room = malloc(1);
    if (count > 1) return !room && !strncmp(words[1], "errors", 6) ? 3 : 0;
    long length = read(0, octets, sizeof octets);
    if (length > 0) while (read(0, octets + length, 1) > 0) continue;
    return room ? write(1, octets, length) < 0 : 0;
}
