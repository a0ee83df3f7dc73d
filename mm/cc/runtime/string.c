/* Strings. */

size_t strlen(const char *text)
{
    size_t at = 0;
    while (text[at])
        at++;
    return at;
}

size_t strnlen(const char *text, size_t most)
{
    size_t at = 0;
    while (at < most && text[at])
        at++;
    return at;
}

int strncmp(const char *a, const char *b, size_t most)
{
    for (size_t at = 0; at < most; at++) {
        unsigned char one = a[at], other = b[at];
        if (one != other)
            return one < other ? -1 : 1;
        if (!one)
            break;
    }
    return 0;
}

int strcmp(const char *a, const char *b)
{
    return strncmp(a, b, ~0ul);
}

char *strcpy(char *to, const char *from)
{
    size_t at = 0;
    do
        to[at] = from[at];
    while (from[at++]);
    return to;
}

char *stpcpy(char *to, const char *from)
{
    size_t at = 0;
    while ((to[at] = from[at]))
        at++;
    return to + at;
}

char *strncpy(char *to, const char *from, size_t size)
{
    size_t at = 0;
    for (; at < size && from[at]; at++)
        to[at] = from[at];
    for (; at < size; at++)
        to[at] = 0;
    return to;
}

char *stpncpy(char *to, const char *from, size_t size)
{
    strncpy(to, from, size);
    return to + strnlen(to, size);
}

char *strcat(char *to, const char *from)
{
    strcpy(to + strlen(to), from);
    return to;
}

char *strncat(char *to, const char *from, size_t most)
{
    size_t length = strlen(to), at = 0;
    for (; at < most && from[at]; at++)
        to[length + at] = from[at];
    to[length + at] = 0;
    return to;
}

char *strchr(const char *text, int byte)
{
    for (size_t at = 0;; at++) {
        if (text[at] == (char)byte)
            return (char *)text + at;
        if (!text[at])
            return 0;
    }
}

char *index(const char *text, int byte)
{
    return strchr(text, byte);
}

char *strrchr(const char *text, int byte)
{
    char *found = 0;
    for (size_t at = 0;; at++) {
        if (text[at] == (char)byte)
            found = (char *)text + at;
        if (!text[at])
            return found;
    }
}

char *rindex(const char *text, int byte)
{
    return strrchr(text, byte);
}

char *strstr(const char *text, const char *part)
{
    size_t length = strlen(part);
    for (size_t at = 0;; at++) {
        if (!strncmp(text + at, part, length))
            return (char *)text + at;
        if (!text[at])
            return 0;
    }
}

static size_t span(const char *text, const char *set, int in)
{
    size_t at = 0;
    while (text[at] && !!strchr(set, text[at]) == in)
        at++;
    return at;
}

size_t strspn(const char *text, const char *set)
{
    return span(text, set, 1);
}

size_t strcspn(const char *text, const char *set)
{
    return span(text, set, 0);
}

char *strpbrk(const char *text, const char *set)
{
    size_t at = span(text, set, 0);
    return text[at] ? (char *)text + at : 0;
}

char *strtok_r(char *text, const char *set, char **rest)
{
    if (!text)
        text = *rest;
    *rest = 0;
    if (!text)
        return 0;
    text += strspn(text, set);
    if (!*text)
        return 0;
    size_t length = strcspn(text, set);
    if (text[length]) {
        text[length] = 0;
        *rest = text + length + 1;
    }
    return text;
}

char *strtok(char *text, const char *set)
{
    static char *rest;
    return strtok_r(text, set, &rest);
}

int isdigit(int c) { return c >= '0' && c <= '9'; }
int islower(int c) { return c >= 'a' && c <= 'z'; }
int isupper(int c) { return c >= 'A' && c <= 'Z'; }
int isalpha(int c) { return islower(c) || isupper(c); }
int isalnum(int c) { return isalpha(c) || isdigit(c); }
int isblank(int c) { return c == ' ' || c == '\t'; }
int isspace(int c) { return c == ' ' || c >= '\t' && c <= '\r'; }
int iscntrl(int c) { return c >= 0 && c < ' ' || c == 127; }
int isprint(int c) { return c >= ' ' && c < 127; }
int isgraph(int c) { return c > ' ' && c < 127; }
int ispunct(int c) { return isgraph(c) && !isalnum(c); }
int isxdigit(int c) { return isdigit(c) || c >= 'a' && c <= 'f' || c >= 'A' && c <= 'F'; }
int tolower(int c) { return isupper(c) ? c + 32 : c; }
int toupper(int c) { return islower(c) ? c - 32 : c; }

int strcasecmp(const char *a, const char *b)
{
    for (size_t at = 0;; at++) {
        int one = tolower((unsigned char)a[at]), other = tolower((unsigned char)b[at]);
        if (one != other)
            return one < other ? -1 : 1;
        if (!one)
            return 0;
    }
}
