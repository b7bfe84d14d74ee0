/*
 * The only program in the virtual machine of kernel/boot/run. Its argument is the name of the module, which it loads.
 * Where the module makes a file /proc/NAME, two processes write to it for some seconds, each with known values in its
 * vector registers that must still be there when the write returns. Then it unloads the module, says how it went and
 * ends the machine.
 */
#include <errno.h>
#include <fcntl.h>
#include <stdio.h>
#include <stdlib.h>
#include <string.h>
#include <sys/mount.h>
#include <sys/reboot.h>
#include <sys/syscall.h>
#include <sys/wait.h>
#include <time.h>
#include <unistd.h>

enum { SECONDS = 5, WORKERS = 2, REGISTERS = 16 };

struct registers {
	unsigned char bytes[REGISTERS][16];
} __attribute__((aligned(16)));

/* One system call write(file, text, length) with these values in xmm0 to xmm15; `after` has what they are then. */
static long write_with(const struct registers *before, struct registers *after, int file, const char *text, long length)
{
	long answer = SYS_write;

#define LOAD(r) "movaps " #r "*16(%[before]), %%xmm" #r "\n"
#define KEEP(r) "movaps %%xmm" #r ", " #r "*16(%[after])\n"
#define ALL(m) m(0) m(1) m(2) m(3) m(4) m(5) m(6) m(7) m(8) m(9) m(10) m(11) m(12) m(13) m(14) m(15)
	__asm__ volatile(ALL(LOAD) "syscall\n" ALL(KEEP)
			 : "+a"(answer)
			 : "D"((long)file), "S"(text), "d"(length), [before] "r"(before), [after] "r"(after)
			 : "rcx", "r11", "memory", "xmm0", "xmm1", "xmm2", "xmm3", "xmm4", "xmm5", "xmm6", "xmm7",
			   "xmm8", "xmm9", "xmm10", "xmm11", "xmm12", "xmm13", "xmm14", "xmm15");
	return answer;
}

/* Runs in a process of its own. Its status is 0 where every write succeeded and every register was kept. */
static int work(const char *path, unsigned seed)
{
	static struct registers before, after;
	time_t end = time(NULL) + SECONDS;
	int file = open(path, O_WRONLY);
	size_t k;

	while (file >= 0 && time(NULL) < end) {
		for (k = 0; k < sizeof before; k++)
			((unsigned char *)&before)[k] = rand_r(&seed);
		if (write_with(&before, &after, file, "100", 3) != 3)
			return 1;
		if (memcmp(&before, &after, sizeof before) != 0)
			return 2;
	}
	return file < 0;
}

static int is_file(const char *path)
{
	int file = open(path, O_WRONLY);

	return file >= 0 && close(file) == 0;
}

static int load(void)
{
	int file = open("/module.ko", O_RDONLY);

	return file >= 0 && syscall(SYS_finit_module, file, "", 0) == 0;
}

/* Says it in the kernel's log, where no line of the kernel's comes between. */
static void say(const char *words, long value)
{
	char line[100];
	int file = open("/dev/kmsg", O_WRONLY), length = snprintf(line, sizeof line, "init: %s %ld\n", words, value);

	if (write(file, line, length) != length)
		perror("init: /dev/kmsg");
	close(file);
}

/* Says the worst status of the workers: 0 all is well, 1 a call failed, 2 a vector register was changed. */
static void run(const char *path)
{
	int worst = 0, status, k;

	for (k = 0; k < WORKERS; k++)
		if (fork() == 0)
			_exit(work(path, k + 1));
	while (wait(&status) > 0)
		if (!WIFEXITED(status) || WEXITSTATUS(status) > worst)
			worst = WIFEXITED(status) ? WEXITSTATUS(status) : 1;
	say("workers ended with", worst);
}

int main(int count, char **words)
{
	const char *name = count > 1 ? words[1] : "module";
	char path[100];

	mount("proc", "/proc", "proc", 0, NULL);
	snprintf(path, sizeof path, "/proc/%s", name);
	say("start", 0);
	if (load()) {
		if (is_file(path))
			run(path);
		else
			say("no workers, since the module has no file to write to, error", errno);
		say("unload gave", syscall(SYS_delete_module, name, 0));
	} else {
		say("the module was not loaded, error", errno);
	}
	say("end", 0);
	reboot(RB_AUTOBOOT);
	return 1;
}
