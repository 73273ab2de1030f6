// SPDX-License-Identifier: GPL-2.0
/* Process 1: loads the module, which turns the machine off at its end. */
#include <fcntl.h>
#include <stdio.h>
#include <sys/syscall.h>
#include <unistd.h>

int main(void)
{
	int file = open("/module.ko", O_RDONLY);

	if (file < 0 || syscall(SYS_finit_module, file, "", 0))
		perror("module.ko");
	for (;;)
		pause();
}
