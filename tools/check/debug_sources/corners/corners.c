/* What cc65 tells of a program in few places: code in a header, `...`, a long, register variables,
 * locals of an inner block, a statement of several lines, a switch, #line. */
#include <stdarg.h>
#include "corners.h"

int total;

int sum(int count, ...)
{
    va_list more;
    int all = 0;
    va_start(more, count);
    while (count--)
        all += va_arg(more, int);
    va_end(more);
    return all;
}

char blocks(char a, long b)
{
    char r;
    if (a) {
        int inner = 5;
        r = inner + (char)b;
    } else {
        char other = 3;
        r = other;
    }
    return r;
}

int letters(register const char *p)
{
    register char i;
    register int s = 0;
    static int calls = 3;
    for (i = 0; i < 4; ++i)
        s += p[i];
    ++calls;
    return s;
}

int depth(char n)
{
    int below;
    if (!n)
        return 0;
    below = depth(n - 1);
    return below + 1;
}

int main(void)
{
    total = sum(2, 30, 4) + blocks(1, 2L);
    total += letters("ABCD") + half(total);
#line 100 "other.y"
    total = TWO(total);
    switch (total) {
    case 7:
        total = 1;
        break;
    default:
        total = depth(3);
    }
    return
        total
        + 1;
}
