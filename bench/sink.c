/* A server that opens connections and channels, and drops what is published.
 *
 *     gcc -O2 -o sink sink.c
 *     ./sink
 *
 * It listens on a port of the system's choice, prints its number, and serves one client until that goes. It
 * reads frames as they come, in large pieces, and looks at their first octets alone. In the end it prints
 * how many bodies there were, their octets, and the seconds from the first content header to the last. */

#include <arpa/inet.h>
#include <stdint.h>
#include <stdio.h>
#include <stdlib.h>
#include <string.h>
#include <sys/socket.h>
#include <time.h>
#include <unistd.h>

enum { PIECE = 1 << 20, LONGEST = 131072 };

static unsigned char room[PIECE + LONGEST];

static void stop(const char *why) {
  perror(why);
  exit(1);
}

static double now(void) {
  struct timespec t;
  clock_gettime(CLOCK_MONOTONIC, &t);
  return (double)t.tv_sec + (double)t.tv_nsec / 1e9;
}

/* Says a method to the client. */
static void say(int client, unsigned channel, const void *payload, size_t length) {
  unsigned char frame[128] = {1, channel >> 8, channel, 0, 0, length >> 8, length};
  memcpy(frame + 7, payload, length);
  frame[7 + length] = 0xce;
  if (send(client, frame, length + 8, MSG_NOSIGNAL) != (ssize_t)(length + 8)) stop("send");
}

#define SAY(client, channel, payload) say(client, channel, payload, sizeof payload - 1)

/* Answers a method of the client by its class and number. */
static void answer(int client, unsigned channel, unsigned method) {
  switch (method) {
    case 0x000a000b: SAY(client, 0, "\0\x0a\0\x1e\x07\xff\0\2\0\0\0\0"); break;
    case 0x000a0028: SAY(client, 0, "\0\x0a\0\x29\0"); break;
    case 0x000a0032: SAY(client, 0, "\0\x0a\0\x33"); break;
    case 0x0014000a: SAY(client, channel, "\0\x14\0\x0b\0\0\0\0"); break;
    case 0x00140028: SAY(client, channel, "\0\x14\0\x29"); break;
  }
}

static uint32_t number(const unsigned char *at) {
  return (uint32_t)at[0] << 24 | (uint32_t)at[1] << 16 | (uint32_t)at[2] << 8 | at[3];
}

static uint64_t bodies, octets;
static double begun, ended;

/* Takes the frames that are whole, and says how many octets they are. */
static size_t take(int client, const unsigned char *at, size_t length) {
  size_t taken = 0;
  while (length - taken >= 8) {
    const unsigned char *frame = at + taken;
    size_t size = (size_t)number(frame + 3) + 8;
    if (length - taken < size) break;
    if (frame[0] == 1) answer(client, frame[1] << 8 | frame[2], number(frame + 7));
    if (frame[0] == 2 && begun == 0) begun = now();
    if (frame[0] == 3) bodies++, octets += size - 8;
    taken += size;
  }
  return taken;
}

/* Serves a client until it goes. */
static void serve(int client) {
  size_t kept = 0;
  int header = 0;
  SAY(client, 0, "\0\x0a\0\x0a\0\x09\0\0\0\0\0\0\0\x0ePLAIN AMQPLAIN\0\0\0\5en_US");
  for (;;) {
    ssize_t n = recv(client, room + kept, PIECE, 0);
    if (n <= 0) return;
    kept += (size_t)n;
    size_t taken = 0;
    if (!header && kept >= 8) header = 1, taken = 8;
    if (header) taken += take(client, room + taken, kept - taken);
    memmove(room, room + taken, kept - taken);
    kept -= taken;
    if (bodies) ended = now();
  }
}

int main(void) {
  struct sockaddr_in at = {.sin_family = AF_INET, .sin_addr = {htonl(INADDR_LOOPBACK)}};
  socklen_t length = sizeof at;
  int server = socket(AF_INET, SOCK_STREAM, 0);
  if (bind(server, (struct sockaddr *)&at, length) || listen(server, 1)) stop("listen");
  if (getsockname(server, (struct sockaddr *)&at, &length)) stop("port");
  printf("%d\n", ntohs(at.sin_port));
  fflush(stdout);
  int client = accept(server, 0, 0);
  if (client < 0) stop("accept");
  serve(client);
  printf("%llu bodies, %llu octets, %.6f s\n", (unsigned long long)bodies, (unsigned long long)octets,
         ended - begun);
}
