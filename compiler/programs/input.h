/* What a program is given: with -DSECOND another input, on which a cut is measured that was chosen on the first. */
#ifdef SECOND
#define INPUT(first, second) second
#else
#define INPUT(first, second) first
#endif
