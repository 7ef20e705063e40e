/* A plain judge of code, as a model of nc_host_vet and nc_host_marks. It takes instructions apart by nc_host_decode, and is written from
   the rules of nc_host.h. It is compiled for the fuzzer, which its branches lead to code that is accepted. */
#ifndef JUDGE_H
#define JUDGE_H

#include "nc_host.h"

/* What nc_host_vet has to say. `marks` has room for the code. If that is accepted, it gets what nc_host_marks has to write. */
NcVerdict judge_code(uint32_t base, uint32_t limit, const uint8_t *code, size_t len, uint8_t *marks);

#endif
