#include "pifnjarl_bpf.h"
