/* Prints a kernel's answer on the host, where its main is compiled as `kernel`. */
#include <stdint.h>
#include <stdio.h>

int kernel(void);

int main(void)
{
    printf("%08x\n", (unsigned)(uint32_t)kernel());
    return 0;
}
