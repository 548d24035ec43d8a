/* The words of a file by how often they come: read with getline, cut by strtok_r, and sent to the process that their hash says. */
#define _GNU_SOURCE
#include <ctype.h>
#include <errno.h>
#include <stdio.h>
#include <stdlib.h>
#include <string.h>
#include <bsp.h>

struct entry {
	struct entry *next;
	int count;
	char word[];
};

#define BUCKETS 64
static struct entry *table[BUCKETS];

static unsigned long djb2(const char *s)
{
	unsigned hash = 5381;
	int c;

	while ((c = (unsigned char)*s++) != '\0')
		hash = ((hash << 5) + hash) + c;
	return hash;
}

static void count(const char *word)
{
	struct entry **at = &table[djb2(word) % BUCKETS];

	for (; *at != NULL; at = &(*at)->next)
		if (!strcmp((*at)->word, word)) {
			(*at)->count++;
			return;
		}
	*at = calloc(1, sizeof(**at) + strlen(word) + 1);
	(*at)->count = 1;
	strcpy((*at)->word, word);
}

static int by_count(const void *a, const void *b)
{
	const struct entry *const *x = a, *const *y = b;

	return (*y)->count != (*x)->count ? (*y)->count - (*x)->count : strcmp((*x)->word, (*y)->word);
}

int main(int argc, char **argv)
{
	int n = 0, size;
	size_t room = 0;
	char *line = NULL, *rest, *word;
	struct entry **list, *it;

	bsp_begin(bsp_nprocs());
	if (bsp_pid() == 0) {
		FILE *in = fopen(argc > 1 ? argv[1] : "text/prose.txt", "r");

		if (!in) {
			fprintf(stderr, "%s: %s: %m\n", program_invocation_short_name, argv[1]);
			exit(1);
		}
		while (getline(&line, &room, in) != -1)
			for (word = strtok_r(line, " \t\n.,;:!?()\"'-", &rest); word; word = strtok_r(NULL, " \t\n.,;:!?()\"'-", &rest)) {
				for (char *c = word; *c; c++)
					*c = tolower((unsigned char)*c);
				bsp_send(djb2(word) % bsp_nprocs(), NULL, word, strlen(word) + 1);
			}
		free(line);
		fclose(in);
	}
	bsp_sync();
	for (;;) {
		bsp_get_tag(&size, NULL);
		if (size < 0)
			break;
		word = alloca(size);
		bsp_move(word, size);
		count(word);
	}
	list = malloc(1000 * sizeof(*list));
	for (int i = 0; i < BUCKETS; i++)
		for (it = table[i]; it; it = it->next)
			list[n++] = it;
	qsort(list, n, sizeof(*list), by_count);
	for (int i = 0; i < n && i < 3; i++)
		printf("%d %-12s%*d\n", bsp_pid(), list[i]->word, 5, list[i]->count);
	bsp_end();
	return 0;
}
