/* What a program takes at least that reads its input whole into memory before it writes it: the floor under the commands that
 * write nothing before all is tested. */
#include <stdlib.h>
#include <unistd.h>

enum { PIECE = 65536, WRITTEN_AT_ONCE = 262144 };

int main(void)
{
    char *bytes = NULL;
    size_t length = 0, room = 0, at = 0;
    for (;;) {
        if (room - length < PIECE) {
            room = room * 2 + PIECE;
            bytes = realloc(bytes, room);
            if (bytes == NULL)
                return 3;
        }
        ssize_t count = read(0, bytes + length, PIECE);
        if (count < 0)
            return 4;
        if (count == 0)
            break;
        length += (size_t)count;
    }
    while (at < length) {
        size_t most = length - at < WRITTEN_AT_ONCE ? length - at : WRITTEN_AT_ONCE;
        ssize_t count = write(1, bytes + at, most);
        if (count <= 0)
            return 5;
        at += (size_t)count;
    }
    return 0;
}
