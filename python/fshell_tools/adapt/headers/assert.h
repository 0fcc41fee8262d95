#undef assert
#ifdef NDEBUG
#define assert(e) ((void)0)
#else
extern void assert(int);
#endif
#define static_assert _Static_assert
