/* What each query is made over: rows with a bitmap of nulls in front, and three truths. */
#include "../../pifnjarl.h"

enum { FALSE, TRUE, UNKNOWN };

#define IS_NULL(row, column) ((row)->nulls >> (column) & 1)
#define AND(a, b) ((a) == FALSE || (b) == FALSE ? FALSE : (a) == UNKNOWN || (b) == UNKNOWN ? UNKNOWN : TRUE)
#define OR(a, b) ((a) == TRUE || (b) == TRUE ? TRUE : (a) == UNKNOWN || (b) == UNKNOWN ? UNKNOWN : FALSE)
#define NOT(a) ((a) == UNKNOWN ? UNKNOWN : !(a))
