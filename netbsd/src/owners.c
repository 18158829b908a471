/* owners.c - the targets and counts that are live: so a second init is told, and what is left at the end */
#include "layer.h"

enum { FIRST_ROOM = 64 };

/* By their addresses; a row that is taken is behind no free one from where its address leads. There are a power of two of rows, at least half of them free. */
static pthread_mutex_t lock = PTHREAD_MUTEX_INITIALIZER;
static struct owner *rows;
static size_t room, used;

/* The row of an owner, or the free one where it would be. */
static struct owner *row_of(const void *owner)
{
	uint64_t mixed = (uint64_t)(uintptr_t)owner * UINT64_C(0x9e3779b97f4a7c15);
	size_t place = (size_t)(mixed >> 32) & (room - 1);
	while (rows[place].at != NULL && rows[place].at != owner)
		place = (place + 1) & (room - 1);
	return &rows[place];
}

static void extend(const struct thread *me)
{
	struct owner *before = rows;
	size_t count = room;
	room = room == 0 ? FIRST_ROOM : room * 2;
	rows = grow_row(me, NULL, room * sizeof(*rows));
	memset(rows, 0, room * sizeof(*rows));
	for (size_t place = 0; place < count; place++)
		if (before[place].at != NULL)
			*row_of(before[place].at) = before[place];
	free(before);
}

void note_owner(struct thread *me, const void *at, const struct counts *counts)
{
	pthread_mutex_lock(&lock);
	if (2 * (used + 1) > room)
		extend(me);
	struct owner *row = row_of(at);
	stop_if(me, row->at != NULL, "it is live already");
	*row = (struct owner){at, counts, me->call, me->place};
	used++;
	pthread_mutex_unlock(&lock);
}

/* Those behind it may be there because its row was taken. */
void forget_owner(const void *at)
{
	pthread_mutex_lock(&lock);
	struct owner *row = row_of(at);
	row->at = NULL;
	used--;
	for (;;) {
		row = &rows[(size_t)(row - rows + 1) & (room - 1)];
		if (row->at == NULL)
			break;
		struct owner moved = *row;
		row->at = NULL;
		*row_of(moved.at) = moved;
	}
	pthread_mutex_unlock(&lock);
}

/* One that is live; NULL where none is. */
const struct owner *live_owner(void)
{
	for (size_t place = 0; place < room; place++)
		if (rows[place].at != NULL)
			return &rows[place];
	return NULL;
}
