/* The functions of amqp1.h as functions of the library, for programs that open it while they run, and for other
   languages. tools/build_c.sh compiles it with the system's compiler, and puts it beside what was proved. */
#define AMQP1_FUNCTION
#include "../amqp1.h"
