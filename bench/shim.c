/* The header's inline functions under names that the harness can link: what a C host calls. */
#include "weavemitten.h"

size_t bench_server_size(void)
{
    return sizeof(struct weavemitten_server);
}

uint32_t bench_start(struct weavemitten_server *server, const uint8_t *zone, size_t zone_length)
{
    return weavemitten_start(server, zone, zone_length);
}

uint32_t bench_open(struct weavemitten_server *server, uint64_t time, uint64_t *values)
{
    return weavemitten_open(server, time, values);
}

uint32_t bench_close(struct weavemitten_server *server, uint64_t time, uint64_t session)
{
    return weavemitten_close(server, time, session);
}

uint32_t bench_message(struct weavemitten_server *server, uint64_t time, uint64_t session, const uint8_t *message,
                       size_t message_length, uint8_t *output, size_t output_length, uint64_t *values)
{
    return weavemitten_message(server, time, session, message, message_length, output, output_length, values);
}

uint32_t bench_batch(struct weavemitten_server *server, uint64_t time, const uint8_t *batch, size_t batch_length,
                     uint8_t *output, size_t output_length, uint64_t *values)
{
    return weavemitten_batch(server, time, batch, batch_length, output, output_length, values);
}

uint32_t bench_tick(struct weavemitten_server *server, uint64_t time, uint64_t *values)
{
    return weavemitten_tick(server, time, values);
}
