/* Models of builtin functions of gcc and clang. */

int __builtin_popcount(unsigned int x) { int n = 0; while (x) { x &= x - 1; n++; } return n; }
int __builtin_popcountl(unsigned long x) { int n = 0; while (x) { x &= x - 1; n++; } return n; }
int __builtin_popcountll(unsigned long x) { int n = 0; while (x) { x &= x - 1; n++; } return n; }
int __builtin_parity(unsigned int x) { int n = 0; while (x) { x &= x - 1; n ^= 1; } return n; }
int __builtin_parityl(unsigned long x) { int n = 0; while (x) { x &= x - 1; n ^= 1; } return n; }
int __builtin_parityll(unsigned long x) { int n = 0; while (x) { x &= x - 1; n ^= 1; } return n; }
int __builtin_clz(unsigned int x) { int n = 0; assert(x != 0); while (!(x >> 31)) { x <<= 1; n++; } return n; }
int __builtin_clzl(unsigned long x) { int n = 0; assert(x != 0); while (!(x >> 63)) { x <<= 1; n++; } return n; }
int __builtin_clzll(unsigned long x) { int n = 0; assert(x != 0); while (!(x >> 63)) { x <<= 1; n++; } return n; }
int __builtin_ctz(unsigned int x) { int n = 0; assert(x != 0); while (!(x & 1)) { x >>= 1; n++; } return n; }
int __builtin_ctzl(unsigned long x) { int n = 0; assert(x != 0); while (!(x & 1)) { x >>= 1; n++; } return n; }
int __builtin_ctzll(unsigned long x) { int n = 0; assert(x != 0); while (!(x & 1)) { x >>= 1; n++; } return n; }
int __builtin_ffs(int x) { int n = 1; unsigned int rest = x; if (!rest) { return 0; } while (!(rest & 1)) { rest >>= 1; n++; } return n; }
int __builtin_ffsl(long x) { int n = 1; unsigned long rest = x; if (!rest) { return 0; } while (!(rest & 1)) { rest >>= 1; n++; } return n; }
int __builtin_ffsll(long x) { int n = 1; unsigned long rest = x; if (!rest) { return 0; } while (!(rest & 1)) { rest >>= 1; n++; } return n; }
unsigned short __builtin_bswap16(unsigned short x) { return (x << 8) | (x >> 8); }
unsigned int __builtin_bswap32(unsigned int x) { return x << 24 | (x & 65280) << 8 | (x >> 8 & 65280) | x >> 24; }
unsigned long __builtin_bswap64(unsigned long x) { return (unsigned long) __builtin_bswap32(x) << 32 | __builtin_bswap32(x >> 32); }
