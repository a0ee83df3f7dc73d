/* Output: each byte is printed by one operation. */

typedef struct __mm_file {
    int number;
} FILE;
static FILE files[3] = {{0}, {1}, {2}};
FILE *stdin = &files[0], *stdout = &files[1], *stderr = &files[2];

/* Where printed bytes go: to the output, or to at most `room` bytes of a text. */
struct sink {
    char *text;
    size_t room, count;
};

static void put(struct sink *sink, int byte)
{
    if (!sink->text)
        __mm_op_out(byte);
    else if (sink->count < sink->room)
        sink->text[sink->count] = byte;
    sink->count++;
}

int putchar(int byte)
{
    __mm_op_out(byte);
    return (unsigned char)byte;
}

int fputc(int byte, FILE *file) { return putchar(byte); }
int putc(int byte, FILE *file) { return putchar(byte); }

int fputs(const char *text, FILE *file)
{
    for (size_t at = 0; text[at]; at++)
        putchar(text[at]);
    return 0;
}

int puts(const char *text)
{
    fputs(text, stdout);
    putchar('\n');
    return 0;
}

size_t fwrite(const void *from, size_t size, size_t count, FILE *file)
{
    for (size_t at = 0; at < size * count; at++)
        putchar(((const char *)from)[at]);
    return count;
}

int fflush(FILE *file) { return 0; }
void perror(const char *text) { puts(text); }

struct form {
    int left, zero, plus, blank, other, upper, width, precision;
};

static void pad(struct sink *sink, int count, int byte)
{
    for (; count > 0; count--)
        put(sink, byte);
}

static void put_number(struct sink *sink, struct form *form, number value, int negative, int base)
{
    char digits[24];
    int length = 0, sign = negative ? '-' : form->plus ? '+' : form->blank ? ' ' : 0;
    int prefix = form->other && value && base == 16 ? 2 : 0;
    for (; value; value /= base) {
        int digit = value % base;
        digits[length++] = digit < 10 ? '0' + digit : (form->upper ? 'A' : 'a') + digit - 10;
    }
    if (!length && form->precision)
        digits[length++] = '0';
    if (form->other && base == 8 && form->precision <= length && (!length || digits[length - 1] != '0'))
        digits[length++] = '0';
    int zeros = form->precision > length ? form->precision - length : 0;
    int rest = form->width - length - zeros - !!sign - prefix;
    if (form->zero && form->precision < 0 && !form->left && rest > 0)
        zeros = rest, rest = 0;
    if (!form->left)
        pad(sink, rest, ' ');
    if (sign)
        put(sink, sign);
    if (prefix) {
        put(sink, '0');
        put(sink, form->upper ? 'X' : 'x');
    }
    pad(sink, zeros, '0');
    while (length)
        put(sink, digits[--length]);
    if (form->left)
        pad(sink, rest, ' ');
}

static void put_text(struct sink *sink, struct form *form, const char *text)
{
    size_t length = 0;
    if (!text)
        text = "(null)";
    while ((form->precision < 0 || length < form->precision) && text[length])
        length++;
    if (!form->left)
        pad(sink, form->width - (int)length, ' ');
    for (size_t at = 0; at < length; at++)
        put(sink, text[at]);
    if (form->left)
        pad(sink, form->width - (int)length, ' ');
}

/* What `%n` asks for: how many bytes there were so far, as a number of the size that it says. */
static void put_count(void *to, size_t count, int size)
{
    if (size < -1)
        *(signed char *)to = count;
    else if (size < 0)
        *(short *)to = count;
    else if (size > 0)
        *(long *)to = count;
    else
        *(int *)to = count;
}

static int print(struct sink *sink, const char *text, va_list given)
{
    for (; *text; text++) {
        if (*text != '%') {
            put(sink, *text);
            continue;
        }
        struct form form = {.precision = -1};
        int size = 0;
        for (text++;; text++) {
            if (*text == '-')
                form.left = 1;
            else if (*text == '0')
                form.zero = 1;
            else if (*text == '+')
                form.plus = 1;
            else if (*text == ' ')
                form.blank = 1;
            else if (*text == '#')
                form.other = 1;
            else
                break;
        }
        if (*text == '*') {
            form.width = va_arg(given, int), text++;
            if (form.width < 0)
                form.left = 1, form.width = -form.width;
        }
        for (; *text >= '0' && *text <= '9'; text++)
            form.width = form.width * 10 + *text - '0';
        if (*text == '.') {
            form.precision = 0;
            if (*++text == '*')
                form.precision = va_arg(given, int), text++;
            for (; *text >= '0' && *text <= '9'; text++)
                form.precision = form.precision * 10 + *text - '0';
        }
        for (;; text++) {
            if (*text == 'l' || *text == 'z' || *text == 't' || *text == 'j')
                size++;
            else if (*text == 'h')
                size--;
            else
                break;
        }
        number value;
        switch (*text) {
        case 'd':
        case 'i': {
            long found = size > 0 ? va_arg(given, long) : va_arg(given, int);
            if (size == -1)
                found = (short)found;
            if (size < -1)
                found = (signed char)found;
            put_number(sink, &form, found < 0 ? -(number)found : found, found < 0, 10);
            break;
        }
        case 'u':
        case 'x':
        case 'X':
        case 'o':
            value = size > 0 ? va_arg(given, number) : va_arg(given, unsigned);
            if (size == -1)
                value = (unsigned short)value;
            if (size < -1)
                value = (unsigned char)value;
            form.upper = *text == 'X';
            form.plus = form.blank = 0;
            put_number(sink, &form, value, 0, *text == 'u' ? 10 : *text == 'o' ? 8 : 16);
            break;
        case 'p':
            form.other = 1;
            put_number(sink, &form, (number)va_arg(given, void *) & (1ul << 54) - 1, 0, 16);
            break;
        case 'c': {
            int byte = va_arg(given, int);
            if (!form.left)
                pad(sink, form.width - 1, ' ');
            put(sink, byte);
            if (form.left)
                pad(sink, form.width - 1, ' ');
            break;
        }
        case 's':
            put_text(sink, &form, va_arg(given, const char *));
            break;
        case 'n':
            put_count(va_arg(given, void *), sink->count, size);
            break;
        case '%':
            put(sink, '%');
            break;
        case 0:
            return sink->count;
        default:
            put(sink, '%');
            put(sink, *text);
        }
    }
    return sink->count;
}

int vprintf(const char *text, va_list given)
{
    struct sink sink = {0};
    return print(&sink, text, given);
}

int vfprintf(FILE *file, const char *text, va_list given)
{
    return vprintf(text, given);
}

int vsnprintf(char *to, size_t size, const char *text, va_list given)
{
    struct sink sink = {to, size ? size - 1 : 0};
    char nothing;
    if (!size)
        sink.text = &nothing;
    int count = print(&sink, text, given);
    if (size)
        to[count < size - 1 ? count : size - 1] = 0;
    return count;
}

int vsprintf(char *to, const char *text, va_list given)
{
    return vsnprintf(to, 1ul << 40, text, given);
}

int printf(const char *text, ...)
{
    va_list given;
    va_start(given, text);
    int count = vprintf(text, given);
    va_end(given);
    return count;
}

int fprintf(FILE *file, const char *text, ...)
{
    va_list given;
    va_start(given, text);
    int count = vprintf(text, given);
    va_end(given);
    return count;
}

int sprintf(char *to, const char *text, ...)
{
    va_list given;
    va_start(given, text);
    int count = vsprintf(to, text, given);
    va_end(given);
    return count;
}

int snprintf(char *to, size_t size, const char *text, ...)
{
    va_list given;
    va_start(given, text);
    int count = vsnprintf(to, size, text, given);
    va_end(given);
    return count;
}
