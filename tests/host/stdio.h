/* What a C example needs of this header, for a compiler that comes without a C library's. */
int printf(const char *format, ...);
