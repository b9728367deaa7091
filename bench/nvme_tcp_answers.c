// In the place of crates/device_library: answers each PDU of bench/nvme_tcp.c at once, checks nothing, and has no device. What is written
// is thrown away, and what is read are zeros.
#include "../c/pifnjarl_handle.h"
#include "../target/pifnjarl_loop.h"

#include <string.h>

enum { COMMAND = 0x04, RESPONSE = 0x05, H2C_DATA = 0x06, C2H_DATA = 0x07, R2T = 0x09 };
enum { INITIALIZE = 128, CAPSULE = 72, HEADER = 24, MOST_HEADER = 128, MOST_OUT = 64 * (131072 + 2 * HEADER) };

// a connection: the PDU that comes, how much of it came, and what is to be sent
static struct connection {
  uint8_t head[MOST_HEADER], *unsent_end, *unsent, out[MOST_OUT];
  uint32_t came, queue, identifiers[128], first, waiting, asked;
} connections[PIFNJARL_CONNECTIONS];
static size_t begun, writing;

static uint32_t number(const uint8_t *at) {
  uint32_t value;
  memcpy(&value, at, 4);
  return value;
}

// Has a PDU sent, whose bytes behind its first 16 are zeros but for a length.
static void answer(struct connection *c, uint8_t kind, uint8_t header, uint32_t length, uint32_t identifier, uint32_t data) {
  uint8_t *out = c->unsent_end;
  memset(out, 0, length);
  out[0] = kind;
  out[1] = kind == C2H_DATA ? 4 : 0;
  out[2] = header;
  out[3] = kind == C2H_DATA ? header : 0;
  memcpy(out + 4, &length, 4);
  if (kind != RESPONSE) memcpy(out + 8, &identifier, 2), memcpy(out + 16, &data, 4);
  if (kind == RESPONSE) memcpy(out + 8, &data, 4), memcpy(out + 20, &identifier, 2);
  c->unsent_end += length;
}

// Asks for the data of the first command that waits for it.
static void ask(struct connection *c) {
  if (c->asked || !c->waiting) return;
  c->asked = c->identifiers[c->first % 128];
  answer(c, R2T, HEADER, HEADER, c->asked & 0xffff, c->asked >> 16 << 9);
}

// Answers a capsule: the opcode's lowest bits tell the direction of data, as in NVMe.
static void execute(struct connection *c) {
  const uint8_t *entry = c->head + 8;
  uint32_t identifier = entry[2] | entry[3] << 8, size = number(entry + 32);
  if (entry[39] == 0x5a && (entry[0] & 3) == 1 && size) {
    c->identifiers[(c->first + c->waiting++) % 128] = identifier | size >> 9 << 16;
    ask(c);
  } else {
    if (entry[0] == 0x02) answer(c, C2H_DATA, HEADER, HEADER + size, identifier, size);
    answer(c, RESPONSE, HEADER, HEADER, identifier, entry[0] == 0x7f ? 1 : 0);
  }
}

// Answers a PDU that has come whole.
static void take(struct connection *c) {
  c->came = 0;
  if (c->head[0] == 0) answer(c, 1, INITIALIZE, INITIALIZE, 0, 0);
  if (c->head[0] == COMMAND) execute(c);
  if (c->head[0] == H2C_DATA) {
    answer(c, RESPONSE, HEADER, HEADER, c->asked & 0xffff, 0);
    c->first++, c->waiting--, c->asked = 0;
    ask(c);
  }
}

static size_t receive(struct connection *c, const uint8_t *piece, size_t count) {
  size_t kept = c->came < MOST_HEADER ? MOST_HEADER - c->came : 0;
  memcpy(c->head + c->came, piece, kept < count ? kept : count);
  if (c->came + count < 8) return c->came += count, count;
  size_t left = number(c->head + 4) - c->came, taken = left < count ? left : count;
  c->came += taken;
  if (taken == left) take(c);
  return taken;
}

size_t pifnjarl_handle_bytes(void) { return 1; }

void pifnjarl_handle_open(unsigned char *handle, uint32_t door, const unsigned char *bytes, size_t count) {
  (void)handle, (void)door, (void)bytes, (void)count;
}

size_t pifnjarl_handle_call(unsigned char *handle, uint32_t kind, size_t which, size_t count, const unsigned char *piece,
                            size_t piece_bytes, const unsigned char *beside, size_t beside_bytes, struct pifnjarl_reply *reply,
                            unsigned char *out, size_t room) {
  (void)handle, (void)which, (void)count, (void)piece, (void)piece_bytes, (void)beside, (void)beside_bytes, (void)reply, (void)out, (void)room;
  return kind == PIFNJARL_ASK_NAME;
}

void pifnjarl_handle_end(unsigned char *handle) { (void)handle; }

// ---- a loop: it waits, reads each connection where something came, writes each, and takes hosts

static struct pifnjarl_answer ready;

static bool has_unsent(size_t place) { return connections[place].unsent < connections[place].unsent_end; }

static struct pifnjarl_operation waits(void) {
  struct pifnjarl_operation wait = {.kind = PIFNJARL_POLL, .number = 1000, .flag = 1};
  for (size_t place = 0; place < begun; place++) wait.reads[place] = 1, wait.writes[place] = has_unsent(place);
  return wait;
}

static struct pifnjarl_operation accepts(void) {
  bool is_there = begun < PIFNJARL_PLACES && ready.number & PIFNJARL_ACCEPTS;
  return is_there ? (struct pifnjarl_operation){.kind = PIFNJARL_ACCEPT, .number = begun} : waits();
}

static struct pifnjarl_operation writes_from(size_t place) {
  while (place < begun && !has_unsent(place)) place++;
  writing = place;
  return place < begun ? (struct pifnjarl_operation){.kind = PIFNJARL_WRITE, .number = place} : accepts();
}

static struct pifnjarl_operation reads_from(size_t place) {
  while (place < begun && !ready.reads[place]) place++;
  return place < begun ? (struct pifnjarl_operation){.kind = PIFNJARL_READ, .number = place} : writes_from(0);
}

bool pifnjarl_loop_begin(unsigned char *handle, size_t level, struct pifnjarl_operation *operation) {
  (void)handle, (void)level;
  *operation = waits();
  return true;
}

static void sent(struct connection *c, size_t count) {
  size_t left = c->unsent_end - (c->unsent += count);
  if (left > 0 && c->unsent < c->out + MOST_OUT / 2) return;
  memmove(c->out, c->unsent, left);
  c->unsent = c->out, c->unsent_end = c->out + left;
}

static struct pifnjarl_operation happened(const struct pifnjarl_answer *answer) {
  ready = *answer;
  return ready.number & PIFNJARL_SIGNALS ? (struct pifnjarl_operation){.kind = PIFNJARL_END, .flag = 1} : reads_from(0);
}

void pifnjarl_loop_step(unsigned char *handle, const struct pifnjarl_answer *answer, const unsigned char *came, size_t count,
                        struct pifnjarl_operation *operation) {
  size_t place = operation->number;
  struct connection *c = &connections[place];
  (void)handle;
  switch (operation->kind) {
  case PIFNJARL_READ:
    for (size_t taken = 0; taken < count;) taken += receive(c, came + taken, count - taken);
    *operation = reads_from(place + 1);
    break;
  case PIFNJARL_WRITE:
    sent(c, answer->number);
    *operation = writes_from(place + 1);
    break;
  case PIFNJARL_ACCEPT:
    if (answer->kind == PIFNJARL_DID) c->unsent = c->unsent_end = c->out, begun++;
    *operation = waits();
    break;
  default: *operation = happened(answer); break;
  }
}

size_t pifnjarl_loop_carried(unsigned char *handle, size_t from, unsigned char *out, size_t room) {
  const struct connection *c = &connections[writing];
  size_t count = (size_t)(c->unsent_end - c->unsent) < room ? (size_t)(c->unsent_end - c->unsent) : room;
  (void)handle, (void)from;
  memcpy(out, c->unsent, count);
  return count;
}
