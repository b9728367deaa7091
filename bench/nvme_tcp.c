// A host over NVMe/TCP that times a target.
//
// nvme_tcp PORT SIZE COUNT DEPTH [asked]
//                     has the target at that port of 127.0.0.1 do COUNT Appends of SIZE bytes and as many Reads, with DEPTH of them
//                     under way, in five rounds; prints the least nanoseconds of an Append, and of a Read. Up to 8192 bytes are in the
//                     capsule of an Append, unless its data is asked for
// nvme_tcp PORT SIZE COUNT DEPTH into FILE
//                     has it do the Reads alone, from LBA 0 on, and puts the blocks into FILE; prints the least nanoseconds of a Read
//
// Blocks have 4096 bytes, and zones 4096 blocks.
#include <arpa/inet.h>
#include <fcntl.h>
#include <netinet/tcp.h>
#include <stdint.h>
#include <stdio.h>
#include <stdlib.h>
#include <string.h>
#include <sys/mman.h>
#include <sys/socket.h>
#include <sys/uio.h>
#include <time.h>
#include <unistd.h>

enum { COMMAND = 0x04, RESPONSE = 0x05, H2C_DATA = 0x06, C2H_DATA = 0x07, R2T = 0x09 };
enum { READ = 0x02, FABRICS = 0x7f, SEND = 0x79, APPEND = 0x7d, RESET_ALL = 0x104 };
enum { INITIALIZE = 128, CAPSULE = 72, DATA_HEADER = 24, CONNECT_DATA = 1024, IN_CAPSULE = 8192, TRANSFER = 131072 };
enum { BLOCK = 4096, ZONE = 4096, ROUNDS = 5 };

static const char *NAME = "nqn.2014-08.org.nvmexpress:uuid:0f2b6a34-8c1d-4e7a-9b35-7a6f6e6a6172";
static int peer; // the socket of the queue
static uint8_t pdu[DATA_HEADER + TRANSFER], buffer[65536];
static size_t first, last;
static uint32_t in_capsule = IN_CAPSULE; // the most bytes of data that are put into a capsule
static uint8_t *into;                    // where the data of Reads goes, if it is wanted

static uint32_t number(const uint8_t *at) {
  uint32_t value;
  memcpy(&value, at, 4);
  return value;
}

static void put(uint8_t *at, uint32_t value) { memcpy(at, &value, 4); }

static uint64_t now(void) {
  struct timespec time;
  clock_gettime(CLOCK_MONOTONIC, &time);
  return time.tv_sec * 1000000000ull + time.tv_nsec;
}

static void fail(const char *why) {
  fprintf(stderr, "nvme_tcp: %s\n", why);
  exit(1);
}

static void send_bytes(const uint8_t *bytes, size_t count) {
  while (count) {
    ssize_t sent = send(peer, bytes, count, MSG_NOSIGNAL);
    if (sent <= 0) fail("nothing can be sent");
    bytes += sent;
    count -= sent;
  }
}

static void receive_bytes(uint8_t *bytes, size_t count) {
  while (count) {
    size_t taken = last - first < count ? last - first : count;
    if (taken) {
      memcpy(bytes, buffer + first, taken);
      first += taken;
    } else {
      ssize_t came = count < sizeof buffer ? recv(peer, buffer, sizeof buffer, 0) : recv(peer, bytes, count, 0);
      if (came <= 0) fail("the connection ends");
      if (count < sizeof buffer) first = 0, last = came;
      taken = count < sizeof buffer ? 0 : came;
    }
    bytes += taken;
    count -= taken;
  }
}

// Takes a PDU: its type. The data of a Read goes where it is wanted, which the identifier and the offset say.
static uint8_t receive(uint32_t size) {
  receive_bytes(pdu, 8);
  uint32_t length = number(pdu + 4);
  if (length < 8 || length > sizeof pdu) fail("a PDU is too long");
  if (into && pdu[0] == C2H_DATA && length > DATA_HEADER) {
    receive_bytes(pdu + 8, DATA_HEADER - 8);
    uint32_t offset = number(pdu + 12);
    if (offset > size || length - DATA_HEADER > size - offset) fail("more was read than was asked for");
    receive_bytes(into + (size_t)(number(pdu + 8) & 0xffff) * size + offset, length - DATA_HEADER);
  } else {
    receive_bytes(pdu + 8, length - 8);
  }
  return pdu[0];
}

// A capsule with an entry, and what is in it beside.
static void submit(uint8_t opcode, uint8_t kind, uint16_t identifier, const uint32_t *dwords, uint32_t size, const uint8_t *data) {
  static uint8_t capsule[CAPSULE + IN_CAPSULE];
  uint8_t *entry = capsule + 8;
  memset(capsule, 0, CAPSULE);
  capsule[0] = COMMAND, capsule[2] = CAPSULE, capsule[3] = data ? CAPSULE : 0;
  put(capsule + 4, CAPSULE + (data ? size : 0));
  entry[0] = opcode;
  entry[1] = 0x40;
  memcpy(entry + 2, &identifier, 2);
  put(entry + 4, opcode == FABRICS ? kind : 1);
  put(entry + 32, size);
  entry[39] = data ? 0x01 : 0x5a;
  for (int i = 0; i < 6; i++) put(entry + 40 + 4 * i, dwords[i]);
  if (data) memcpy(capsule + CAPSULE, data, size);
  send_bytes(capsule, CAPSULE + (data ? size : 0));
}

// Waits for a completion, which has to tell no refusal.
static void complete(void) {
  if (receive(0) != RESPONSE) fail("another PDU than a completion came");
  if (pdu[22] > 1 || pdu[23]) fail("a command was refused");
}

// A connection of a queue.
static int begin(uint16_t port, uint16_t queue, uint32_t entries, uint16_t controller) {
  struct sockaddr_in at = {.sin_family = AF_INET, .sin_port = htons(port), .sin_addr.s_addr = htonl(INADDR_LOOPBACK)};
  int yes = 1;
  peer = socket(AF_INET, SOCK_STREAM, 0);
  if (peer < 0 || connect(peer, (struct sockaddr *)&at, sizeof at)) fail("no target listens");
  setsockopt(peer, IPPROTO_TCP, TCP_NODELAY, &yes, sizeof yes);
  uint8_t request[INITIALIZE] = {0, 0, INITIALIZE, 0, INITIALIZE}, data[CONNECT_DATA] = "a host that asks";
  send_bytes(request, sizeof request);
  receive(0);
  memcpy(data + 16, &controller, 2);
  strcpy((char *)data + 256, NAME);
  strcpy((char *)data + 512, "nqn.2026-11.test:bench");
  submit(FABRICS, 1, 0, (uint32_t[6]){(uint32_t)queue << 16, entries - 1}, sizeof data, data);
  complete();
  return peer;
}

// The Append or the Read of a number, which is its identifier too, and with which its data begins. As Linux does, little data is put into
// the capsule.
static void transfer(uint8_t opcode, uint32_t index, uint32_t size) {
  static uint8_t data[IN_CAPSULE];
  uint32_t blocks = size / BLOCK, lba = index * blocks;
  uint32_t at = opcode == READ ? lba : lba / ZONE * ZONE;
  memcpy(data, &(uint16_t){index % 65536}, 2);
  submit(opcode, 0, index % 65536, (uint32_t[6]){at, 0, blocks - 1}, size, opcode == APPEND && size <= in_capsule ? data : NULL);
}

// Sends the data that a command is asked for, which begins with the command's identifier.
static void give(uint32_t size) {
  static uint8_t data[DATA_HEADER + TRANSFER] = {H2C_DATA, 4, DATA_HEADER, DATA_HEADER};
  put(data + 4, DATA_HEADER + size);
  memcpy(data + 8, pdu + 8, 4);
  put(data + 16, size);
  memcpy(data + DATA_HEADER, pdu + 8, 2);
  send_bytes(data, DATA_HEADER + size);
}

// The nanoseconds of so many Appends or Reads, of which so many are under way.
static uint64_t transfers(uint8_t opcode, uint32_t size, uint32_t count, uint32_t depth) {
  uint64_t begin = now();
  for (uint32_t sent = 0, done = 0; done < count;) {
    for (; sent < count && sent - done < depth; sent++) transfer(opcode, sent, size);
    switch (receive(size)) {
    case R2T: give(size); break;
    case C2H_DATA:
      if (number(pdu + 16) != size) fail("another number of bytes was read");
      break;
    case RESPONSE:
      if (pdu[22] > 1 || pdu[23]) fail("a command was refused");
      done++;
      break;
    default: fail("the target ends the connection");
    }
  }
  return now() - begin;
}

// The memory of a file with room for so many bytes.
static uint8_t *memory_of(const char *name, size_t bytes) {
  int file = open(name, O_RDWR | O_CREAT, 0666);
  if (file < 0 || ftruncate(file, bytes)) fail("the file can't be made");
  void *memory = mmap(NULL, bytes, PROT_READ | PROT_WRITE, MAP_SHARED, file, 0);
  if (memory == MAP_FAILED) fail("there is no memory");
  return memory;
}

int main(int argc, char **argv) {
  if (argc < 5 || argc > 7) return 2;
  if (argc == 6) in_capsule = 0;
  uint16_t port = atoi(argv[1]);
  uint32_t size = atoi(argv[2]), count = atoi(argv[3]), depth = atoi(argv[4]);
  // each Read has an identifier of its own
  if (argc == 7 && count > 65535) return 2;
  uint64_t appends = -1, reads = -1;
  begin(port, 0, 32, 0xffff);
  submit(FABRICS, 0, 1, (uint32_t[6]){0, 0x14, 0x00460061}, 0, NULL);
  complete();
  begin(port, 1, 128, 1);
  if (argc == 7) {
    into = memory_of(argv[6], (size_t)size * count);
    for (int round = 0; round < ROUNDS; round++) {
      uint64_t spent = transfers(READ, size, count, depth);
      if (spent < reads) reads = spent;
    }
    printf("%lu ns a Read\n", (unsigned long)(reads / count));
    return 0;
  }
  for (int round = 0; round < ROUNDS; round++) {
    submit(SEND, 0, 0, (uint32_t[6]){0, 0, 0, RESET_ALL}, 0, NULL);
    complete();
    uint64_t spent = transfers(APPEND, size, count, depth);
    if (spent < appends) appends = spent;
    spent = transfers(READ, size, count, depth);
    if (spent < reads) reads = spent;
  }
  printf("%lu ns an Append\n%lu ns a Read\n", (unsigned long)(appends / count), (unsigned long)(reads / count));
  return 0;
}
