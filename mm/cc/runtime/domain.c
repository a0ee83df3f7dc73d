/* Domains: narrower pointers, keys, shared words, and handlers. */

void *mm_slice(const void *pointer, size_t n, long permission)
{
    number at = bits_of(pointer);
    long log = 3, most = log_in(pointer), has = at >> 60;
    while (n && log < most && at >> log != (at + n - 1) >> log)
        log++;
    void *found = (void *)pointer;
    if (log < most)
        found = __mm_op_subseg(found, log);
    return permission == has ? found : __mm_op_restrict(found, permission);
}

void *mm_key(const void *pointer)
{
    return __mm_op_restrict(pointer, MM_KEY);
}

static int reaches(const void *pointer, size_t n)
{
    number at = bits_of(pointer), end = at + (n ? n - 1 : 0);
    long log = log_in(pointer);
    /* No word is in a segment of fewer than 8 bytes, and a byte is loaded with its word. */
    return __mm_op_isptr(pointer) && log >= 3 && end >= at && at >> log == end >> log;
}

int mm_can_read(const void *pointer, size_t n)
{
    return reaches(pointer, n) && bits_of(pointer) >> 60 <= MM_XP;
}

int mm_can_write(const void *pointer, size_t n)
{
    return reaches(pointer, n) && bits_of(pointer) >> 60 == MM_RW;
}

void *mm_take_pointer(const void *word) { return __mm_op_ld_full_empty(word); }
void mm_put_pointer(void *word, const void *value) { __mm_op_st_empty_full(word, value); }
long mm_take(const void *word) { return (long)__mm_op_ld_full_empty(word); }
void mm_put(void *word, long value) { __mm_op_st_empty_full(word, (void *)value); }

void __mm_event(struct mm_event *event);
void mm_event(struct mm_event *event) { __mm_event(event); }
void mm_resume(long slot, int way)
{
    if (way == MM_RETRY)
        __mm_op_resume(slot, MM_RETRY);
    else if (way == MM_SKIP)
        __mm_op_resume(slot, MM_SKIP);
    else
        __mm_op_resume(slot, MM_KILL);
}

#define EACH(DO) \
    DO(0) DO(1) DO(2) DO(3) DO(4) DO(5) DO(6) DO(7) DO(8) DO(9) DO(10) DO(11) DO(12) DO(13) DO(14) DO(15)

void *mm_register(long slot, int number)
{
    switch (number) {
#define READ(n) case n: return __mm_op_rreg(slot, n);
        EACH(READ)
    }
    return 0;
}

void mm_set_register(long slot, int number, const void *value)
{
    switch (number) {
#define WRITE(n) case n: __mm_op_wreg(slot, n, value); break;
        EACH(WRITE)
    }
}
