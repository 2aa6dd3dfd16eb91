/* As the other headers here, for firmware that is compiled by the kit alone. */
#ifndef PORTS_STDBOOL_H
#define PORTS_STDBOOL_H
#define bool _Bool
#define true 1
#define false 0
#endif
