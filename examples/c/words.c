/* Counts words in a hash table whose entries come from malloc. */
#include "say.h"
#include <stdlib.h>
#include <string.h>

#define CHAINS 16

struct entry {
    struct entry *next;
    char *word;
    int count;
};

static struct entry *chains[CHAINS];

static unsigned hash(const char *word)
{
    unsigned h = 2166136261u;
    for (; *word; word++)
        h = (h ^ (unsigned char)*word) * 16777619u;
    return h % CHAINS;
}

static struct entry *find(const char *word)
{
    struct entry **place = &chains[hash(word)];
    for (; *place; place = &(*place)->next)
        if (!strcmp((*place)->word, word))
            return *place;
    struct entry *made = malloc(sizeof *made);
    made->next = 0;
    made->word = strcpy(malloc(strlen(word) + 1), word);
    made->count = 0;
    return *place = made;
}

static void forget_all(void)
{
    for (int i = 0; i < CHAINS; i++)
        while (chains[i]) {
            struct entry *gone = chains[i];
            chains[i] = gone->next;
            free(gone->word);
            free(gone);
        }
}

int main(void)
{
    char text[] = "a pointer to a segment is a word with a tag and a word with a tag is a pointer";
    for (char *word = strtok(text, " "); word; word = strtok(0, " "))
        find(word)->count++;
    const char *asked[] = {"a", "pointer", "word", "tag", "key"};
    for (int i = 0; i < 5; i++) {
        say(asked[i]);
        putchar(' ');
        say_number(find(asked[i])->count);
        putchar('\n');
    }
    forget_all();
    return 0;
}
