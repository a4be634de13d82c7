/* Faults of FIFO and LRU on the same references, and Belady's anomaly. */
#include <stdio.h>

#define MOST 8

static const int references[] = { 1, 2, 3, 4, 1, 2, 5, 1, 2, 3, 4, 5 };
#define MANY ((int)(sizeof references / sizeof references[0]))

static int faults(int frames, int is_lru)
{
	int page[MOST], since[MOST], used = 0, at, frame, victim, many = 0;

	for (at = 0; at < MANY; at++) {
		for (frame = 0; frame < used && page[frame] != references[at]; frame++)
			;
		if (frame < used) {
			if (is_lru)
				since[frame] = at;
			continue;
		}
		many++;
		if (used < frames)
			victim = used++;
		else
			for (victim = frame = 0; frame < used; frame++)
				if (since[frame] < since[victim])
					victim = frame;
		page[victim] = references[at];
		since[victim] = at;
	}
	return many;
}

int main(void)
{
	int frames;

	puts("frames  FIFO   LRU");
	for (frames = 1; frames <= 5; frames++)
		printf("%6d %5d %5d%s\n", frames, faults(frames, 0), faults(frames, 1), faults(frames, 0) > faults(frames - 1 ? frames - 1 : 1, 0) ? "  more than with one frame less" : "");
	return 0;
}
