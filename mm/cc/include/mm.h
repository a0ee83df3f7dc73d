/* The machine's own operations, domains, shared words and handlers, as C can name them. docs/C.md says how they are
   used. */
#ifndef MM_H
#define MM_H

#include <stddef.h>

/* Permissions. */
enum { MM_RO = 1, MM_RW = 2, MM_XU = 3, MM_XP = 4, MM_EU = 5, MM_EP = 6, MM_KEY = 7 };

/* A door: `long pay(long amount) MM_DOOR(pay);`. The program that defines the function is entered by others through
   it. */
#define MM_DOOR(name) __asm__("mm_door_" #name)

/* Words that several programs share, one of which defines them: `extern long box[4] MM_SHARED(box);`. What is shorter than
   a word is to be `_Atomic`, or a store to it loses what others store beside it. */
#define MM_SHARED(name) __asm__("mm_shared_" #name)

/* The same, and all words are empty at first. */
#define MM_EMPTY(name) __asm__("mm_empty_" #name)

/* The slot and the group of the program's thread, and the slot that handles its faults, or -1. */
#define MM_THREAD(slot, group, handler) const int __mm_thread[3] = {slot, group, handler}

/* A narrower pointer to n bytes: the least segment that holds them, with fewer rights if these are said. */
void *mm_slice(const void *pointer, size_t n, long permission);

/* A key: a pointer that nothing can be done with but to compare it. */
void *mm_key(const void *pointer);

/* Whether a pointer may load, or load and store, n bytes. */
int mm_can_read(const void *pointer, size_t n);
int mm_can_write(const void *pointer, size_t n);

/* A number: the bits of a word, without the tag that would make it a pointer. A `long` that comes through a door may be a
   pointer with all its rights. */
#define mm_number(word) __mm_op_number((long)(word))

/* Words by their synchronisation bits: taking waits until a word is full and leaves it empty, putting the other way
   round. */
long mm_take(const void *word);
void mm_put(void *word, long value);
void *mm_take_pointer(const void *word);
void mm_put_pointer(void *word, const void *value);

/* Events of the slots that this one handles. */
struct mm_event {
    long what; /* the cause, and 256 times the slot */
    void *at;
    void *address;
    void *data;
};
enum { MM_RETRY = 0, MM_SKIP = 1, MM_KILL = 2 };
void mm_event(struct mm_event *event);
void *mm_register(long slot, int number);
void mm_set_register(long slot, int number, const void *value);
void mm_resume(long slot, int way);
#define MM_CAUSE(event) ((event).what & 255)
#define MM_SLOT(event) ((event).what >> 8)

/* One operation each. The numbers of those marked so are part of the operation, and must be constants. */
#define MM_CONSTANT __attribute__((nomerge))
void *__mm_op_subseg(const void *pointer, long log);
void *__mm_op_restrict(const void *pointer, long permission);
void *__mm_op_leab(const void *pointer, long offset);
long __mm_op_isptr(const void *pointer);
long __mm_op_number(long word);
long __mm_op_eqw(const void *pointer, const void *other);
long __mm_op_self(void);
void __mm_op_out(long byte);
void __mm_op_halt(long status) __attribute__((noreturn));
void __mm_op_trap(long number) MM_CONSTANT;
void *__mm_op_ld_full_empty(const void *word);
void *__mm_op_ld_full_keep(const void *word);
void __mm_op_st_empty_full(void *word, const void *value);
void __mm_op_st_any_empty(void *word, const void *value);
void __mm_op_st_any_full(void *word, const void *value);
void *__mm_op_rreg(long slot, int number) MM_CONSTANT;
void __mm_op_wreg(long slot, int number, const void *value) MM_CONSTANT;
void __mm_op_resume(long slot, int way) MM_CONSTANT;

#endif
