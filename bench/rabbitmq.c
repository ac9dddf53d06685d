/* The work of amqp_bench with rabbitmq-c: body frames that are written, or read, in memory; and messages
 * that are published, or delivered.
 *
 *     apt-get install librabbitmq-dev
 *     gcc -O2 -o rabbitmq rabbitmq.c -lrabbitmq
 *     ./rabbitmq write SIZE COUNT | read SIZE COUNT | messages-out SIZE COUNT | messages-in SIZE COUNT
 *         | publish SIZE COUNT PORT | ready SIZE COUNT PORT
 *
 * It writes by amqp_send_frame, whose `send` is the one below, and reads by amqp_handle_input. It publishes
 * by amqp_basic_publish, over the same `send`; and takes what is delivered frame by frame, by
 * amqp_simple_wait_frame, whose `recv` is the one below. With a port it publishes to the server that listens
 * there on this machine, as sink.c does, over a socket of the system; or writes frames that were made before, in
 * large writes, which is as fast as any client can be. */

#include <amqp.h>
#include <amqp_framing.h>
#include <amqp_tcp_socket.h>
#include <fcntl.h>
#include <stdio.h>
#include <stdlib.h>
#include <string.h>
#include <sys/socket.h>

enum { LIMIT = 131072 };

static uint64_t octets;

/* Whether the socket is one of the system. */
static int real;

/* Takes all, and puts it nowhere: the library calls this in the place of the system's. */
ssize_t send(int socket, const void *bytes, size_t length, int flags) {
  if (real) return sendto(socket, bytes, length, flags, NULL, 0);
  octets += length;
  return (ssize_t)length;
}

/* What a server says again and again, and how much of it was given. */
static unsigned char *said;
static size_t said_length, said_given;

/* Gives as much as there is room for: the library calls this in the place of the system's. */
ssize_t recv(int socket, void *room, size_t length, int flags) {
  if (real) return recvfrom(socket, room, length, flags, NULL, NULL);
  if (said_given == said_length) said_given = 0;
  size_t left = said_length - said_given, n = left < length ? left : length;
  memcpy(room, said + said_given, n);
  said_given += n;
  return (ssize_t)n;
}

static void stop(const char *why) {
  fprintf(stderr, "%s\n", why);
  exit(1);
}

/* A connection that never had a peer, with frames of up to LIMIT octets. */
static amqp_connection_state_t connection(void) {
  amqp_connection_state_t state = amqp_new_connection();
  amqp_socket_t *socket = amqp_tcp_socket_new(state);
  if (!socket) stop("no socket");
  amqp_tcp_socket_set_sockfd(socket, 0);
  /* The connection can be tuned once a frame was read. */
  amqp_frame_t frame;
  amqp_bytes_t body = {9, "\3\0\1\0\0\0\1x\xce"};
  if (amqp_handle_input(state, body, &frame) != 9) stop("not read");
  if (amqp_tune_connection(state, 2047, LIMIT, 0) != AMQP_STATUS_OK) stop("no memory");
  return state;
}

static void write_frames(size_t size, uint64_t count) {
  amqp_connection_state_t state = connection();
  amqp_frame_t frame = {.frame_type = AMQP_FRAME_BODY, .channel = 1};
  frame.payload.body_fragment = amqp_bytes_malloc(size);
  memset(frame.payload.body_fragment.bytes, 'x', size);
  for (uint64_t i = 0; i < count; i++)
    if (amqp_send_frame(state, &frame) != AMQP_STATUS_OK) stop("not written");
}

/* As many frames one after another as LIMIT octets take. How many octets it is. */
static size_t fill(unsigned char *room, size_t size) {
  size_t length = 0;
  for (; length + size + 8 <= LIMIT; length += size + 8) {
    unsigned char front[7] = {3, 0, 1, size >> 24, size >> 16, size >> 8, size};
    memcpy(room + length, front, 7);
    memset(room + length + 7, 'x', size);
    room[length + 7 + size] = 0xce;
  }
  return length;
}

/* Reads the frame at the front. How many octets it used. */
static size_t read_frame(amqp_connection_state_t state, amqp_bytes_t bytes) {
  amqp_frame_t frame;
  size_t used = 0;
  do {
    amqp_bytes_t rest = {bytes.len - used, (char *)bytes.bytes + used};
    int taken = amqp_handle_input(state, rest, &frame);
    if (taken <= 0) stop("not read");
    used += (size_t)taken;
  } while (frame.frame_type == 0);
  amqp_maybe_release_buffers_on_channel(state, 1);
  return used;
}

static void read_frames(size_t size, uint64_t count) {
  amqp_connection_state_t state = connection();
  unsigned char *room = malloc(LIMIT);
  size_t length = fill(room, size), at = 0;
  for (uint64_t i = 0; i < count; i++) {
    if (at == length) at = 0;
    size_t used = read_frame(state, (amqp_bytes_t){length - at, room + at});
    at += used;
    octets += used;
  }
}

/* A connection with one channel to the server that listens on this machine. */
static amqp_connection_state_t connected(int port) {
  amqp_connection_state_t state = amqp_new_connection();
  amqp_socket_t *socket = amqp_tcp_socket_new(state);
  real = 1;
  if (!socket || amqp_socket_open(socket, "127.0.0.1", port)) stop("no server");
  amqp_rpc_reply_t told = amqp_login(state, "/", 0, LIMIT, 0, AMQP_SASL_METHOD_PLAIN, "guest", "guest");
  if (told.reply_type != AMQP_RESPONSE_NORMAL || !amqp_channel_open(state, 1)) stop("not connected");
  return state;
}

static void publish(amqp_connection_state_t state, size_t size, uint64_t count) {
  amqp_bytes_t body = amqp_bytes_malloc(size), queue = amqp_cstring_bytes("q");
  memset(body.bytes, 'x', size);
  for (uint64_t i = 0; i < count; i++)
    if (amqp_basic_publish(state, 1, amqp_empty_bytes, queue, 0, 0, NULL, body) != AMQP_STATUS_OK)
      stop("not published");
}

/* Appends a frame of channel 1 to what the server says. */
static void say(unsigned char type, const void *payload, size_t size) {
  unsigned char front[7] = {type, 0, 1, size >> 24, size >> 16, size >> 8, size};
  memcpy(said + said_length, front, 7);
  memcpy(said + said_length + 7, payload, size);
  said[said_length + 7 + size] = 0xce;
  said_length += size + 8;
}

/* As many messages one after another as so many octets take, and one at least: a method, a content header
 * without properties, and a body. Says how many there are. */
static uint64_t say_messages(const void *method, size_t length, size_t size, size_t most) {
  unsigned char header[14] = {0, 60, 0, 0, 0, 0, 0, 0, size >> 24, size >> 16, size >> 8, size};
  size_t one = length + sizeof header + size + 24;
  uint64_t messages = 0;
  unsigned char *body = malloc(size);
  memset(body, 'x', size);
  said = malloc(most + one);
  do {
    say(1, method, length);
    say(2, header, sizeof header);
    say(3, body, size);
    messages++;
  } while (said_length + one <= most);
  return messages;
}

/* Writes messages of basic.publish to the queue q, a MiB of them at a time, and so some more at the end. */
static void write_ready(int socket, size_t size, uint64_t count) {
  static const unsigned char method[] = "\0\x3c\0\x28\0\0\0\1q\0";
  uint64_t each = say_messages(method, sizeof method - 1, size, 1 << 20);
  fcntl(socket, F_SETFL, 0); /* It waits until there is room. */
  for (uint64_t i = 0; i < count; i += each)
    for (size_t at = 0; at < said_length;) {
      ssize_t n = sendto(socket, said + at, said_length - at, MSG_NOSIGNAL, NULL, 0);
      if (n < 0) stop("not written");
      at += (size_t)n;
    }
}

/* basic.deliver to the consumer c of the queue q. */
static void deliver(size_t size, uint64_t count) {
  static const unsigned char method[] = "\0\x3c\0\x3c\1c\0\0\0\0\0\0\0\1\0\0\1q";
  amqp_connection_state_t state = connection();
  say_messages(method, sizeof method - 1, size, LIMIT);
  for (uint64_t i = 0; i < count;) {
    amqp_frame_t frame;
    if (amqp_simple_wait_frame(state, &frame) != AMQP_STATUS_OK) stop("not delivered");
    if (frame.frame_type != AMQP_FRAME_BODY) continue;
    octets += frame.payload.body_fragment.len;
    i++;
    amqp_maybe_release_buffers_on_channel(state, 1);
  }
}

int main(int argc, char **argv) {
  if (argc != 4 && argc != 5)
    stop("usage: rabbitmq write|read|messages-out|messages-in SIZE COUNT | publish|ready SIZE COUNT PORT");
  size_t size = strtoul(argv[2], 0, 10);
  uint64_t count = strtoull(argv[3], 0, 10);
  if (!strcmp(argv[1], "write")) write_frames(size, count);
  else if (!strcmp(argv[1], "read")) read_frames(size, count);
  else if (!strcmp(argv[1], "messages-out")) publish(connection(), size, count);
  else if (!strcmp(argv[1], "publish") && argc == 5) publish(connected(atoi(argv[4])), size, count);
  else if (!strcmp(argv[1], "ready") && argc == 5)
    write_ready(amqp_get_sockfd(connected(atoi(argv[4]))), size, count);
  else if (!strcmp(argv[1], "messages-in")) deliver(size, count);
  else stop("what is to be done?");
  printf("%s: %llu of %zu octets: %llu octets in all\n", argv[1], (unsigned long long)count,
         size, (unsigned long long)octets);
}
