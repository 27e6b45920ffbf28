/* Sixty-four threads that open, cut, duplicate and close files at once, so that numbers go from thread to thread. */
#define _GNU_SOURCE
#include <fcntl.h>
#include <pthread.h>
#include <stdio.h>
#include <unistd.h>

enum { THREADS = 64, ROUNDS = 20, APART = 1000, NUMBERS_EACH = 8 };

static void close_open(int number)
{
	if (number >= 0)
		close(number);
}

static void cut_and_close(const char *name)
{
	int opened = open(name, O_CREAT | O_RDWR, 0644);

	if (opened < 0)
		return;
	if (ftruncate(opened, 0))
		lseek(opened, 0, SEEK_SET);
	int other = dup(opened);
	close(opened);
	if (other >= 0 && ftruncate(other, 1))
		lseek(other, 0, SEEK_SET);
	close_open(other);
}

static void *work(void *number)
{
	long mine = (long)number;
	int far = APART + (int)mine * NUMBERS_EACH;
	char name[32];

	snprintf(name, sizeof name, "kept/%ld", mine);
	for (int round = 0; round < ROUNDS; round++) {
		cut_and_close(name);
		close_open(open("given", O_RDONLY));
		close_open(open("given", O_WRONLY));
		int null = open("/dev/null", O_RDWR);
		if (dup2(null, far) >= 0)
			close(far);
		close_open(null);
	}
	return NULL;
}

int main(void)
{
	pthread_t threads[THREADS];

	for (long number = 0; number < THREADS; number++)
		pthread_create(&threads[number], NULL, work, (void *)number);
	for (int number = 0; number < THREADS; number++)
		pthread_join(threads[number], NULL);
	return 0;
}
