/* What kewohiata.h and the C examples need of this header, for a compiler that comes without a C library's. */
#include <stddef.h>
#ifdef __cplusplus
extern "C" {
#endif
void *memcpy(void *to, const void *from, size_t count);
void *memset(void *to, int byte, size_t count);
int memcmp(const void *one, const void *other, size_t count);
#ifdef __cplusplus
}
#endif
