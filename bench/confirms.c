/* The work of `amqp publish` with rabbitmq-c: publishes each line of standard input with confirms, at most 1,000 without
 * an answer.
 *
 *     apt-get install librabbitmq-dev
 *     gcc -O2 -o confirms confirms.c -lrabbitmq
 *     ./confirms PORT QUEUE <lines
 */

#include <amqp.h>
#include <amqp_framing.h>
#include <amqp_tcp_socket.h>
#include <stdio.h>
#include <stdlib.h>
#include <string.h>

enum { MOST_OPEN = 1000 };

static void stop(const char *why) {
  fprintf(stderr, "%s\n", why);
  exit(1);
}

static amqp_connection_state_t connection(int port) {
  amqp_connection_state_t state = amqp_new_connection();
  amqp_socket_t *socket = amqp_tcp_socket_new(state);
  if (!socket || amqp_socket_open(socket, "127.0.0.1", port)) stop("no link");
  if (amqp_login(state, "/", 0, 131072, 0, AMQP_SASL_METHOD_PLAIN, "guest", "guest").reply_type !=
      AMQP_RESPONSE_NORMAL)
    stop("not let in");
  amqp_channel_open(state, 1);
  if (amqp_get_rpc_reply(state).reply_type != AMQP_RESPONSE_NORMAL) stop("no channel");
  amqp_confirm_select(state, 1);
  if (amqp_get_rpc_reply(state).reply_type != AMQP_RESPONSE_NORMAL) stop("no confirms");
  return state;
}

/* Reads answers until the last of these publishes has its own; acks come in order here. */
static unsigned long long wait_for(amqp_connection_state_t state, unsigned long long confirmed,
                                   unsigned long long wanted) {
  while (confirmed < wanted) {
    amqp_frame_t frame;
    amqp_maybe_release_buffers(state);
    if (amqp_simple_wait_frame(state, &frame) != AMQP_STATUS_OK) stop("not read");
    if (frame.frame_type != AMQP_FRAME_METHOD || frame.payload.method.id != AMQP_BASIC_ACK_METHOD)
      stop("no ack");
    amqp_basic_ack_t *ack = frame.payload.method.decoded;
    confirmed = ack->multiple ? ack->delivery_tag : confirmed + 1;
  }
  return confirmed;
}

int main(int argc, char **argv) {
  if (argc != 3) stop("usage: confirms PORT QUEUE");
  amqp_connection_state_t state = connection(atoi(argv[1]));
  unsigned long long published = 0, confirmed = 0;
  char *line = 0;
  size_t room = 0;
  for (ssize_t length; (length = getline(&line, &room, stdin)) > 0;) {
    if (line[length - 1] == '\n') length--;
    amqp_bytes_t body = {(size_t)length, line};
    if (amqp_basic_publish(state, 1, amqp_empty_bytes, amqp_cstring_bytes(argv[2]), 0, 0, 0, body) !=
        AMQP_STATUS_OK)
      stop("not published");
    if (++published - confirmed >= MOST_OPEN)
      confirmed = wait_for(state, confirmed, published - MOST_OPEN + 1);
  }
  confirmed = wait_for(state, confirmed, published);
  printf("%llu published, %llu confirmed\n", published, confirmed);
  amqp_connection_close(state, AMQP_REPLY_SUCCESS);
  amqp_destroy_connection(state);
}
