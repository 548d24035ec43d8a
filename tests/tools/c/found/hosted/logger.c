/* Messages by levels, in a file of each process and on standard error, by variadic functions and macros. */
#include <stdarg.h>
#include <stdio.h>
#include <stdlib.h>
#include <string.h>
#include <time.h>
#include <bsp.h>

enum level { DEBUG, INFO, WARN, ERROR, LEVELS };
static const char *const names[LEVELS] = {[DEBUG] = "debug", [INFO] = "info", [WARN] = "WARN", [ERROR] = "ERROR"};
static struct { FILE *file; enum level least; unsigned counts[LEVELS]; } logger;

static int __attribute__((format(printf, 4, 5))) log_line(enum level level, const char *func, int line, const char *fmt, ...)
{
	va_list args, again;
	char *text, stamp[32];
	int n;
	time_t when = 86400 * 365;

	logger.counts[level]++;
	if (level < logger.least)
		return 0;
	va_start(args, fmt);
	va_copy(again, args);
	n = vsnprintf(NULL, 0, fmt, args);
	va_end(args);
	text = malloc(n + 1);
	vsprintf(text, fmt, again);
	va_end(again);
	strftime(stamp, sizeof(stamp), "%Y-%m-%d %H:%M:%S", gmtime(&when));
	fprintf(logger.file, "%s [%-5s] %s:%d: %s\n", stamp, names[level], func, line, text);
	free(text);
	return n;
}
#define LOG(level, fmt, ...) log_line(level, __func__, __LINE__, fmt, ##__VA_ARGS__)
#define CHECK(what) do { if (!(what)) LOG(ERROR, "check failed: %s", #what); } while (0)

static double mean(int n, ...)
{
	va_list ap;
	double sum = 0;
	int i;

	va_start(ap, n);
	for (i = 0; i < n; i++)
		sum += va_arg(ap, double);
	va_end(ap);
	return n ? sum / n : 0;
}

int main(void)
{
	char name[FILENAME_MAX];

	bsp_begin(bsp_nprocs());
	snprintf(name, sizeof(name), "run.%02d.log", bsp_pid());
	logger.file = fopen(name, "w");
	setvbuf(logger.file, NULL, _IOLBF, BUFSIZ);
	logger.least = INFO;
	LOG(DEBUG, "not seen");
	LOG(INFO, "process %d of %d", bsp_pid(), bsp_nprocs());
	LOG(WARN, "%5.1f%% of %lld%s", mean(3, 10.0, 20.0, 36.5), 1LL << 40, "");
	CHECK(1 + 1 == 2);
	CHECK(bsp_pid() != 2);
	fclose(logger.file);
	printf("%u %u %u %u\n", logger.counts[DEBUG], logger.counts[INFO], logger.counts[WARN], logger.counts[ERROR]);
	bsp_end();
	return 0;
}
