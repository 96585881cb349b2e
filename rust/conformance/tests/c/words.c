/* Prints what straightener_words says of the numbers 0 to 99, a line each. */
#include "straightener.h"

#include <stdio.h>

int main(void)
{
    uint32_t number;
    for (number = 0; number < 100; number++)
        printf("%s\n", straightener_words(number));
    return 0;
}
