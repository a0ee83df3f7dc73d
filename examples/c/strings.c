/* Strings: what is in the library, and what is made here. */
#include "say.h"
#include <ctype.h>
#include <string.h>

static void turn_round(char *text)
{
    for (char *first = text, *last = text + strlen(text) - 1; first < last; first++, last--) {
        char kept = *first;
        *first = *last;
        *last = kept;
    }
}

static int is_palindrome(const char *text)
{
    char letters[32];
    int n = 0;
    for (; *text; text++)
        if (isalpha((unsigned char)*text))
            letters[n++] = tolower((unsigned char)*text);
    for (int i = 0; i < n / 2; i++)
        if (letters[i] != letters[n - 1 - i])
            return 0;
    return 1;
}

int main(void)
{
    char room[32] = "guarded";
    strcat(room, " pointer");
    say(room);
    say(strstr(room, "point") == room + 8 ? " has a point\n" : " has none\n");
    turn_round(room);
    say(room);
    say("\n");
    say_number(strlen(room));
    say(strchr(room, 'z') ? " with z\n" : " without z\n");
    say(is_palindrome("A man, a plan, a canal: Panama") ? "a palindrome\n" : "none\n");
    say_number(strcmp("load", "store"));
    say_number(strncmp("loaded", "loading", 4));
    say("\n");
    return 0;
}
