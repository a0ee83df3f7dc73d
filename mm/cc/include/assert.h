#undef assert
#ifdef NDEBUG
#define assert(condition) ((void)0)
#else
void __mm_assert(const char *, const char *, int) __attribute__((noreturn));
#define assert(condition) ((condition) ? (void)0 : __mm_assert(#condition, __FILE__, __LINE__))
#endif
