/* Memory that is refused, and another archive, for refused_test.go. */
#include <stddef.h>
#include <stdint.h>

void refuse_after(long count);
long blocks(void);
void tell(int32_t number, size_t len);
