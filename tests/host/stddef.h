/* What kewohiata.h needs of this header, for a compiler that comes without a C library's. */
typedef __SIZE_TYPE__ size_t;
