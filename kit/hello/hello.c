#include "s2.h"

int main(void)
{
    console_text("hello\n");
    return 0;
}
