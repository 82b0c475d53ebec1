// What the lines of a trace cost with no pool behind them: reads each, parses it as `poolctl replay` does (a verb, and
// numbers of at most 32 bits behind one space each), and writes an answer of the usual length. Its buffers are of
// 8,192 bytes, as poolctl's.
#include <stdbool.h>
#include <stdint.h>
#include <stdio.h>
#include <string.h>

enum { BUFFER = 8192, LINE = 64 };

static char input[BUFFER], output[BUFFER];
static size_t at, filled, used;

static int next_byte(void) {
  if (at == filled) {
    filled = fread(input, 1, BUFFER, stdin);
    at = 0;
    if (filled == 0) return -1;
  }
  return (unsigned char)input[at++];
}

static void write_out(const char *text, size_t length) {
  if (used + length > BUFFER) {
    fwrite(output, 1, used, stdout);
    used = 0;
  }
  memcpy(output + used, text, length);
  used += length;
}

// a number with no leading zero
static bool number(const char **text, uint64_t *value) {
  const char *p = *text;
  if (*p < '0' || *p > '9') return false;
  *value = 0;
  if (*p == '0') {
    *text = p + 1;
    return true;
  }
  for (; *p >= '0' && *p <= '9'; p++) {
    *value = *value * 10 + (uint64_t)(*p - '0');
    if (*value > UINT32_MAX) return false;
  }
  *text = p;
  return true;
}

static bool is_verb(const char *line, size_t length, const char *verb) {
  return length == strlen(verb) && !memcmp(line, verb, length);
}

// the numbers behind the verb
static bool parsed(const char *line, uint64_t numbers[3]) {
  const char *space = strchr(line, ' ');
  if (!space) return false;
  size_t length = (size_t)(space - line);
  const char *p = space + 1;
  if (!number(&p, &numbers[0])) return false;
  if (is_verb(line, length, "link") || is_verb(line, length, "take") || is_verb(line, length, "retire")) return !*p;
  if (*p++ != ' ' || !number(&p, &numbers[1])) return false;
  if (!is_verb(line, length, "free")) return !*p;
  return *p++ == '.' && number(&p, &numbers[2]) && !*p;
}

static size_t decimal(char *to, uint64_t value) {
  char digits[24];
  size_t count = 0;
  do {
    digits[count++] = (char)('0' + value % 10);
  } while (value /= 10);
  for (size_t i = 0; i < count; i++) to[i] = digits[count - 1 - i];
  return count;
}

static void answer(const uint64_t numbers[3]) {
  char text[LINE] = "slot ";
  size_t length = 5;
  length += decimal(text + length, numbers[0] % 1024);
  text[length++] = '.';
  length += decimal(text + length, numbers[1] % 256);
  text[length++] = '\n';
  write_out(text, length);
}

int main(void) {
  char line[LINE + 1];
  size_t length = 0;
  bool is_header = true;
  setvbuf(stdin, NULL, _IONBF, 0);
  setvbuf(stdout, NULL, _IONBF, 0);
  for (int byte; (byte = next_byte()) >= 0;) {
    if (byte != '\n') {
      if (length == LINE) return 1;
      line[length++] = (char)byte;
      continue;
    }
    line[length] = 0;
    length = 0;
    uint64_t numbers[3] = {0};
    if (!is_header) {
      if (!parsed(line, numbers)) return 1;
      answer(numbers);
    }
    is_header = false;
  }
  fwrite(output, 1, used, stdout);
  return 0;
}
