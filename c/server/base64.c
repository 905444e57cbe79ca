#include "base64.h"

static const char DIGITS[] = "ABCDEFGHIJKLMNOPQRSTUVWXYZabcdefghijklmnopqrstuvwxyz0123456789+/";

/* A = counts as a digit of value 0. -1: it is none. */
static int value_of(char digit) {
  if (digit >= 'A' && digit <= 'Z') return digit - 'A';
  if (digit >= 'a' && digit <= 'z') return digit - 'a' + 26;
  if (digit >= '0' && digit <= '9') return digit - '0' + 52;
  return digit == '+' ? 62 : digit == '/' ? 63 : digit == '=' ? 0 : -1;
}

static size_t count_digits(const char *text, size_t bytes) {
  size_t digits = 0;
  for (size_t at = 0; at < bytes; at++) digits += value_of(text[at]) >= 0;
  return digits;
}

size_t base64_decode(char *text, size_t bytes) {
  size_t given = 0, digits = 0, fills = 0;
  unsigned group = 0;
  if (count_digits(text, bytes) % 4 != 0) return 0;
  for (size_t at = 0; at < bytes && (fills == 0 || digits % 4 != 0); at++) {
    int value = value_of(text[at]);
    if (value < 0) continue;
    fills += text[at] == '=';
    group = group << 6 | (unsigned)value;
    if (++digits % 4 != 0) continue;
    if (fills > 2) return 0;
    for (size_t byte = 0; byte < 3 - fills; byte++) text[given++] = (char)(group >> (16 - 8 * byte) & 255);
  }
  return given;
}

char *base64_encode(char *to, const char *from, size_t bytes) {
  for (size_t at = 0; at < bytes; at += 3) {
    size_t left = bytes - at;
    unsigned group = (unsigned)(unsigned char)from[at] << 16;
    if (left > 1) group |= (unsigned)(unsigned char)from[at + 1] << 8;
    if (left > 2) group |= (unsigned char)from[at + 2];
    *to++ = DIGITS[group >> 18 & 63];
    *to++ = DIGITS[group >> 12 & 63];
    *to++ = left > 1 ? DIGITS[group >> 6 & 63] : '=';
    *to++ = left > 2 ? DIGITS[group & 63] : '=';
  }
  return to;
}
