/* Checksums by shifts and masks, and a text in hexadecimal. */
#include <inttypes.h>
#include <stdint.h>
#include <stdio.h>
#include <string.h>

static uint32_t crc32(const char *text)
{
	uint32_t crc = 0xffffffff;
	int bit;

	for (; *text; text++) {
		crc ^= (uint8_t)*text;
		for (bit = 0; bit < 8; bit++)
			crc = crc & 1 ? crc >> 1 ^ 0xedb88320 : crc >> 1;
	}
	return ~crc;
}

static uint16_t fletcher(const char *text)
{
	uint16_t one = 0, other = 0;

	for (; *text; text++) {
		one = (one + (uint8_t)*text) % 255;
		other = (other + one) % 255;
	}
	return other << 8 | one;
}

int main(void)
{
	static const char *const texts[] = { "", "123456789", "the quick brown fox", "pages" };
	size_t at;
	const char *it;
	int8_t small = 127;

	for (at = 0; at < sizeof texts / sizeof texts[0]; at++) {
		printf("%08" PRIx32 " %04" PRIx16 " ", crc32(texts[at]), fletcher(texts[at]));
		for (it = texts[at]; *it && it < texts[at] + 8; it++)
			printf("%02x", (unsigned char)*it);
		printf("%s\n", strlen(texts[at]) > 8 ? ".." : "");
	}
	small++;
	printf("%d %d\n", small, (int16_t)(uint16_t)40000);
	return 0;
}
