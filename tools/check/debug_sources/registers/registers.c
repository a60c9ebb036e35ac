/* Locals and parameters beside register variables, and functions of the library whose code cannot be
 * followed. */
#include <cc65.h>
#include <stdlib.h>
#include <string.h>

char text[20];
int total;

int beside(int first, register int kept, int last)
{
    int before = 5;
    register int sum;
    int after = 4;
    char next = 3;
    static int calls;
    register char step;
    char behind = 2;
    long large = 70000;
    ++calls;
    sum = kept + last;
    for (step = 0; step < 2; ++step)
        sum += step + before;
    total = sum + after;
    return total + next + behind + (int)large + first;
}

int digits(int number)
{
    int before = 1;
    char *made = calloc(3, 2);
    int after = 2;
    itoa(number, text, 10);
    utoa(number, text + 10, 10);
    before += text[0];
    ltoa(70000, text, 10);
    ultoa(70000, text, 16);
    after += idiv32by16r16(70000, 7);
    after += (int)udiv32by16r16(70000, 7);
    bzero(text, 3);
    total = before + after + (made != 0);
    return total;
}

int main(void)
{
    int which = 9;
    which += beside(1, 2, 3);
    which += digits(12345);
    return which;
}
