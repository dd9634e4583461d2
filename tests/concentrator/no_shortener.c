/* A stand-in for the shortener that ends the program with status 42. run.sh links the example with it by the linker's
 * option --wrap, to see which messages the example shortens. */
#include <stdlib.h>

void __wrap_crudvim_shorten(void);

void __wrap_crudvim_shorten(void)
{
    exit(42);
}
