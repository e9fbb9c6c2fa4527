/* c2ms.py has this read first. There is no C library; but main is main, and returns 0 where it says nothing else. */
#pragma GCC system_header
#undef __STDC_HOSTED__
#define __STDC_HOSTED__ 0
