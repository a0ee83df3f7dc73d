/* A small interpreter: expressions are compiled for a stack machine, whose operations are reached by pointers to
   functions. */
#include "say.h"
#include <ctype.h>
#include <stdlib.h>

enum code { PUSH, LOAD, STORE, ADD, SUB, MUL, DIV, END };

struct instruction {
    enum code code;
    long operand;
};

static struct instruction program[64];
static int length;
static long variables[26], stack[16];
static int top;
static const char *at;

static void put(enum code code, long operand)
{
    program[length++] = (struct instruction){code, operand};
}

static int next(void)
{
    while (*at == ' ')
        at++;
    return *at;
}

static void sum(void);

static void factor(void)
{
    if (next() == '(') {
        at++;
        sum();
        at++;
    } else if (isdigit(*at)) {
        put(PUSH, strtol(at, (char **)&at, 10));
    } else {
        put(LOAD, *at++ - 'a');
    }
}

static void product(void)
{
    factor();
    while (next() == '*' || *at == '/') {
        enum code code = *at++ == '*' ? MUL : DIV;
        factor();
        put(code, 0);
    }
}

static void sum(void)
{
    product();
    while (next() == '+' || *at == '-') {
        enum code code = *at++ == '+' ? ADD : SUB;
        product();
        put(code, 0);
    }
}

static long add(long a, long b) { return a + b; }
static long sub(long a, long b) { return a - b; }
static long mul(long a, long b) { return a * b; }
static long div_(long a, long b) { return b ? a / b : 0; }

static long (*const operations[])(long, long) = {add, sub, mul, div_};

static void carry_out(void)
{
    for (const struct instruction *now = program;; now++) {
        switch (now->code) {
        case PUSH:
            stack[top++] = now->operand;
            break;
        case LOAD:
            stack[top++] = variables[now->operand];
            break;
        case STORE:
            variables[now->operand] = stack[--top];
            break;
        case END:
            return;
        default:
            top--;
            stack[top - 1] = operations[now->code - ADD](stack[top - 1], stack[top]);
        }
    }
}

static void line(const char *text)
{
    at = text;
    length = 0;
    int name = *at;
    at += 3;
    sum();
    put(STORE, name - 'a');
    put(END, 0);
    carry_out();
    putchar(name);
    say(" = ");
    say_number(variables[name - 'a']);
    putchar('\n');
}

int main(void)
{
    line("x: 6 * (3 + 4)");
    line("y: x / 5 - 100");
    line("z: (x + y) * (x - y)");
    return 0;
}
