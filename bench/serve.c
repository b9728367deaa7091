// Frames (docs/device.md) over two pipes: a host that times a program which serves them, and such a program that only copies.
//
// serve drive SIZE COUNT DEPTH PROGRAM WORD..
//                     has PROGRAM do COUNT Appends of SIZE bytes and as many Reads, with DEPTH of them under way, in five rounds;
//                     prints the least nanoseconds of an Append, and of a Read
// serve turns FILTER COUNT PROGRAM WORD..
//                     appends COUNT blocks to zone 0, has PROGRAM run the filter over them, into zone 1, in five rounds; prints how
//                     many records and blocks that came to, and the least nanoseconds of a turn
// serve stream SIZE COUNT
//                     writes the frames of COUNT Appends and as many Reads
// serve copy          copies the data of an Append to its place in memory and that of a Read from there, and checks nothing
//
// Blocks have 4096 bytes, and zones 4096 blocks.
#include <stdint.h>
#include <stdio.h>
#include <stdlib.h>
#include <string.h>
#include <sys/wait.h>
#include <time.h>
#include <unistd.h>

enum { HEADER = 16, ENTRY = 64, COMPLETION = 16, TRANSFER = 131072, BLOCK = 4096, ZONE = 4096, IMAGE = 4 * ZONE * BLOCK };
enum { READ = 0x02, SEND = 0x79, APPEND = 0x7d, RUN = 0xc0, LOAD = 0xc1, OPEN = 3, RESET_ALL = 0x104 };
enum { RESET = 4, COMPLETED = 1, ROUNDS = 5 };
static const uint64_t EMITTED = 66; // the most bytes that the filter emits for a block

static uint8_t frame[HEADER + ENTRY + TRANSFER], answer[HEADER + COMPLETION + TRANSFER];
static int to, from; // the pipes

static uint32_t number(const uint8_t *at) {
  uint32_t value;
  memcpy(&value, at, 4);
  return value;
}

static void put(uint8_t *at, uint32_t value) { memcpy(at, &value, 4); }

static uint64_t now(void) {
  struct timespec time;
  clock_gettime(CLOCK_MONOTONIC, &time);
  return time.tv_sec * 1000000000ull + time.tv_nsec;
}

static void fail(const char *why) {
  fprintf(stderr, "serve: %s\n", why);
  exit(1);
}

static void send_bytes(const uint8_t *bytes, size_t count) {
  while (count) {
    ssize_t sent = write(to, bytes, count);
    if (sent <= 0) fail("nothing can be written");
    bytes += sent;
    count -= sent;
  }
}

// Some bytes that come, at least one; none where the stream has ended.
static size_t some_bytes(uint8_t *bytes, size_t most) {
  ssize_t came = read(from, bytes, most);
  if (came < 0) fail("nothing can be read");
  return came;
}

// So many bytes that come, through a buffer where they are few; none where the stream has ended.
static size_t receive_bytes(uint8_t *bytes, size_t count) {
  static uint8_t buffer[16384];
  static size_t first, last;
  size_t have = 0;
  while (have < count) {
    size_t wanted = count - have, taken;
    if (first < last || wanted < sizeof buffer) {
      if (first == last) first = 0, last = some_bytes(buffer, sizeof buffer);
      taken = wanted < last - first ? wanted : last - first;
      memcpy(bytes + have, buffer + first, taken);
      first += taken;
    } else {
      taken = some_bytes(bytes + have, wanted);
    }
    if (taken == 0 && have > 0) fail("the stream breaks off");
    if (taken == 0) return 0;
    have += taken;
  }
  return have;
}

// The frame of a submission, whose data stands in it already: how long it is.
static size_t submission(uint8_t opcode, uint64_t lba, uint32_t dword12, uint32_t dword13, uint32_t dword14, uint32_t size) {
  static uint16_t identifier;
  uint8_t *entry = frame + HEADER;
  memset(frame, 0, HEADER + ENTRY);
  frame[0] = frame[2] = 1;
  put(frame + 8, size);
  entry[0] = opcode;
  identifier++;
  memcpy(entry + 2, &identifier, 2);
  put(entry + 4, 1);
  memcpy(entry + 40, &lba, 8);
  put(entry + 48, dword12);
  put(entry + 52, dword13);
  put(entry + 56, dword14);
  return HEADER + ENTRY + size;
}

// The frame of the Append or the Read of a number. An Append's data begins with the number.
static size_t transfer(uint8_t opcode, uint32_t index, uint32_t size) {
  uint32_t blocks = size / BLOCK, lba = index * blocks;
  if (opcode == READ) return submission(READ, lba, blocks - 1, 0, 0, 0);
  put(frame + HEADER + ENTRY, index);
  return submission(APPEND, lba / ZONE * ZONE, blocks - 1, 0, 0, size);
}

// Takes an answer, which has to tell no refusal: its kind.
static uint8_t take_answer(void) {
  if (!receive_bytes(answer, HEADER)) fail("the stream ends");
  if (answer[0] != COMPLETED) return answer[0];
  receive_bytes(answer + HEADER, COMPLETION + number(answer + 8));
  if (answer[HEADER + 14] || answer[HEADER + 15]) fail("a command was refused");
  return COMPLETED;
}

static void command(size_t length) {
  send_bytes(frame, length);
  take_answer();
}

// The nanoseconds of so many Appends or Reads, of which so many are under way.
static uint64_t transfers(uint8_t opcode, uint32_t size, uint32_t count, uint32_t depth) {
  uint64_t begin = now();
  for (uint32_t sent = 0, done = 0; done < count; done++) {
    for (; sent < count && sent - done < depth; sent++) send_bytes(frame, transfer(opcode, sent, size));
    take_answer();
    if (opcode == READ && number(answer + HEADER + COMPLETION) != done) fail("another block was read");
  }
  return now() - begin;
}

static void drive(uint32_t size, uint32_t count, uint32_t depth) {
  uint64_t appends = -1, reads = -1;
  for (int round = 0; round < ROUNDS; round++) {
    command(submission(SEND, 0, 0, RESET_ALL, 0, 0));
    uint64_t spent = transfers(APPEND, size, count, depth);
    if (spent < appends) appends = spent;
    spent = transfers(READ, size, count, depth);
    if (spent < reads) reads = spent;
  }
  printf("%lu ns an Append\n%lu ns a Read\n", appends / count, reads / count);
}

static void turns(const char *filter, uint32_t count) {
  uint64_t least = -1;
  FILE *file = fopen(filter, "rb");
  if (!file) fail("no filter");
  uint32_t size = fread(frame + HEADER + ENTRY, 1, TRANSFER, file);
  command(submission(LOAD, EMITTED << 32, size, 0, 0, size));
  for (uint32_t i = 0; i < count; i++) {
    memset(frame + HEADER + ENTRY, i % 251, BLOCK);
    command(submission(APPEND, 0, 0, 0, 0, BLOCK));
  }
  for (int round = 0; round < ROUNDS; round++) {
    command(submission(SEND, ZONE, 0, RESET, 0, 0));
    command(submission(SEND, ZONE, 0, OPEN, 0, 0));
    uint64_t begin = now();
    send_bytes(frame, submission(RUN, 0, count - 1, 0, ZONE, 0));
    while (take_answer() != COMPLETED) {}
    uint64_t spent = now() - begin;
    if (spent < least) least = spent;
  }
  printf("%u records in %u blocks\n%lu ns a turn\n", number(answer + HEADER), number(answer + HEADER + 4), least / count);
}

static void copy(void) {
  uint8_t *store = malloc(IMAGE);
  if (!store) fail("no memory");
  size_t written[IMAGE / ZONE / BLOCK] = {0};
  while (receive_bytes(frame, HEADER)) {
    uint32_t size = number(frame + 8), given = 0;
    receive_bytes(frame + HEADER, ENTRY + size);
    const uint8_t *entry = frame + HEADER, *data = entry + ENTRY;
    size_t place = (size_t)number(entry + 40) * BLOCK;
    memset(answer, 0, HEADER + COMPLETION);
    if (entry[0] == APPEND) {
      memcpy(store + place + written[place / ZONE / BLOCK], data, size);
      written[place / ZONE / BLOCK] += size;
    } else if (entry[0] == READ) {
      given = (number(entry + 48) + 1) * BLOCK;
      memcpy(answer + HEADER + COMPLETION, store + place, given);
    } else {
      memset(written, 0, sizeof written);
    }
    answer[0] = answer[2] = 1;
    put(answer + 8, given);
    memcpy(answer + HEADER + 12, entry + 2, 2);
    send_bytes(answer, HEADER + COMPLETION + given);
  }
}

// Starts the program, with a pipe to it and one from it.
static pid_t start(char **words) {
  int in[2], out[2];
  if (pipe(in) || pipe(out)) fail("no pipe");
  pid_t child = fork();
  if (child < 0) fail("no process");
  if (child == 0) {
    dup2(in[0], 0);
    dup2(out[1], 1);
    for (int i = 0; i < 2; i++) close(in[i]), close(out[i]);
    execv(words[0], words);
    fail("the program doesn't start");
  }
  close(in[0]);
  close(out[1]);
  to = in[1];
  from = out[0];
  return child;
}

// Ends the streams, and asks that the program ends well.
static int end(pid_t child) {
  int status;
  close(to);
  while (receive_bytes(answer, 1)) {}
  return waitpid(child, &status, 0) == child && status == 0 ? 0 : 1;
}

int main(int argc, char **argv) {
  if (argc == 2 && !strcmp(argv[1], "copy")) {
    to = 1;
    from = 0;
    copy();
    return 0;
  }
  if (argc == 4 && !strcmp(argv[1], "stream")) {
    to = 1;
    uint32_t size = atoi(argv[2]), count = atoi(argv[3]);
    for (uint32_t i = 0; i < 2 * count; i++) send_bytes(frame, transfer(i < count ? APPEND : READ, i % count, size));
    return 0;
  }
  if (argc > 5 && !strcmp(argv[1], "drive")) {
    pid_t child = start(argv + 5);
    drive(atoi(argv[2]), atoi(argv[3]), atoi(argv[4]));
    return end(child);
  }
  if (argc > 4 && !strcmp(argv[1], "turns")) {
    pid_t child = start(argv + 4);
    turns(argv[2], atoi(argv[3]));
    return end(child);
  }
  return 2;
}
