/* Everyday work in C, compiled for the SM83 by sdcc: a sieve, a sort, a checksum
 * and strings. crt0.s calls main again and again; `round` makes each one
 * different. */

#include <stdint.h>
#include <string.h>

#define SIEVE_SIZE 512
#define SORT_SIZE 48
#define TEXT_SIZE 64

static uint8_t crossed[SIEVE_SIZE];
static uint16_t numbers[SORT_SIZE];
static char text[TEXT_SIZE];
static char copy[TEXT_SIZE];

uint16_t round;
uint16_t primes;
uint16_t checksum;
uint8_t palindromes;

static uint16_t count_primes(void) {
	uint16_t found = 0;
	memset(crossed, 0, SIEVE_SIZE);
	for (uint16_t i = 2; i < SIEVE_SIZE; ++i) {
		if (crossed[i]) {
			continue;
		}
		++found;
		for (uint16_t k = i + i; k < SIEVE_SIZE; k += i) {
			crossed[k] = 1;
		}
	}
	return found;
}

static void fill_numbers(uint16_t seed) {
	for (uint8_t i = 0; i < SORT_SIZE; ++i) {
		seed = seed * 25173u + 13849u;
		numbers[i] = seed;
	}
}

static void sort_numbers(void) {
	for (uint8_t i = 1; i < SORT_SIZE; ++i) {
		uint16_t number = numbers[i];
		uint8_t place = i;
		while (place > 0 && numbers[place - 1] > number) {
			numbers[place] = numbers[place - 1];
			--place;
		}
		numbers[place] = number;
	}
}

static uint16_t crc(const uint8_t *bytes, uint16_t length, uint16_t sum) {
	while (length--) {
		sum ^= (uint16_t) *bytes++ << 8;
		for (uint8_t i = 0; i < 8; ++i) {
			sum = sum & 0x8000u ? (sum << 1) ^ 0x1021u : sum << 1;
		}
	}
	return sum;
}

/* Writes a number in decimal digits and answers where it ends. */
static char *write_number(char *out, uint16_t number) {
	char digits[5];
	uint8_t count = 0;
	do {
		digits[count++] = '0' + number % 10;
		number /= 10;
	} while (number);
	while (count) {
		*out++ = digits[--count];
	}
	*out = 0;
	return out;
}

static uint8_t is_palindrome(const char *word) {
	const char *last = word + strlen(word);
	while (word < last) {
		if (*word++ != *--last) {
			return 0;
		}
	}
	return 1;
}

static void write_text(void) {
	char *end = write_number(text, numbers[round % SORT_SIZE]);
	palindromes += is_palindrome(text);
	strcpy(end, " of ");
	write_number(text + strlen(text), numbers[SORT_SIZE - 1]);
	strcpy(copy, text);
	if (strcmp(copy, text) != 0) {
		checksum = 0;
	}
}

void main(void) {
	++round;
	primes = count_primes();
	fill_numbers(round);
	sort_numbers();
	write_text();
	checksum = crc((const uint8_t *) copy, TEXT_SIZE, checksum + primes);
}
