/* Quicksort about the middle element. The shorter part is sorted first, so that the stack stays small. */

#include <stdlib.h>

static void swap(char *one, char *other, size_t width)
{
	char octet;
	int word;

	for (; width >= 4; width -= 4, one += 4, other += 4) {
		word = *(int *)one;
		*(int *)one = *(int *)other;
		*(int *)other = word;
	}
	for (; width > 0; width--) {
		octet = *one;
		*one++ = *other;
		*other++ = octet;
	}
}

/* sorts the elements from low to high, both among them */
static void sort(char *low, char *high, int width, int (*compare)(const void *, const void *))
{
	char *left, *right, *middle;

	while (low < high) {
		left = low;
		right = high;
		middle = low + (high - low) / width / 2 * width;
		while (left <= right) {
			while (compare(left, middle) < 0)
				left += width;
			while (compare(right, middle) > 0)
				right -= width;
			if (left > right)
				break;
			if (left < right)
				swap(left, right, width);
			/* the middle element goes along where it was swapped */
			if (middle == left)
				middle = right;
			else if (middle == right)
				middle = left;
			left += width;
			right -= width;
		}
		if (right - low < high - left) {
			sort(low, right, width, compare);
			low = left;
		} else {
			sort(left, high, width, compare);
			high = right;
		}
	}
}

/* the element that is like the key, of elements that are sorted */
void *bsearch(const void *key, const void *base, size_t count, size_t width, int (*compare)(const void *, const void *))
{
	const char *low = base, *middle;
	int order;

	while (count > 0) {
		middle = low + count / 2 * width;
		order = compare(key, middle);
		if (order == 0)
			return (void *)middle;
		if (order > 0) {
			low = middle + width;
			count--;
		}
		count /= 2;
	}
	return 0;
}

void qsort(void *base, size_t count, size_t width, int (*compare)(const void *, const void *))
{
	if (count > 1)
		sort(base, (char *)base + (count - 1) * width, width, compare);
}
