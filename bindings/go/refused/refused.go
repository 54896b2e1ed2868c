package mysqlparams

/*
#cgo LDFLAGS: -Wl,--wrap=malloc,--wrap=calloc,--wrap=realloc,--wrap=free
#cgo LDFLAGS: -Wl,--wrap=mysql_params_bind_wide,--wrap=mysql_params_names_wide,--wrap=mysql_params_bind_rows_wide
#cgo LDFLAGS: -Wl,--wrap=mysql_params_first_unportable_wide,--wrap=mysql_params_bind_template_wide
#cgo LDFLAGS: -Wl,--wrap=mysql_params_bind_template_guarded_wide,--wrap=mysql_params_bind_fragments_guarded_wide
#include "refused.h"
*/
import "C"

// refuseAfter has the thread's allocations refused after so many. None is if it is less than 0.
func refuseAfter(count int) { C.refuse_after(C.long(count)) }

// blocks returns how many blocks of C's memory the thread has taken and not given back.
func blocks() int { return int(C.blocks()) }

// tell has the archive's calls of the thread answer with a number, and a length, in place of what they find;
// not if it is 0.
func tell(number, length int) { C.tell(C.int32_t(number), C.size_t(length)) }
