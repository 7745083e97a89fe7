/* A host of Debian's libusbredirparser: reads pieces of what one side sends, frees what is handed out, and counts packets. */
#include <stdint.h>
#include <stdlib.h>
#include <string.h>
#include <usbredirparser.h>

struct side {
    struct usbredirparser *parser;
    const uint8_t *at;
    size_t left;
    size_t packets;
};

static void on_log(void *priv, int level, const char *text)
{
    (void)priv, (void)level, (void)text;
}

static int on_read(void *priv, uint8_t *to, int count)
{
    struct side *side = priv;
    size_t size = (size_t)count < side->left ? (size_t)count : side->left;
    memcpy(to, side->at, size);
    side->at += size;
    side->left -= size;
    return (int)size;
}

static int on_write(void *priv, uint8_t *from, int count)
{
    (void)priv, (void)from;
    return count;
}

static void counted(void *priv)
{
    ((struct side *)priv)->packets++;
}

#define WITHOUT_ID(name, type) \
    static void on_##name(void *priv, struct usb_redir_##type##_header *h) { (void)h; counted(priv); }
#define WITH_ID(name) \
    static void on_##name(void *priv, uint64_t id, struct usb_redir_##name##_header *h) { (void)id, (void)h; counted(priv); }
#define ID_ALONE(name) \
    static void on_##name(void *priv, uint64_t id) { (void)id; counted(priv); }
#define WITH_DATA(name) \
    static void on_##name(void *priv, uint64_t id, struct usb_redir_##name##_header *h, uint8_t *data, int size) \
    { \
        (void)id, (void)h, (void)size; \
        counted(priv); \
        usbredirparser_free_packet_data(((struct side *)priv)->parser, data); \
    }

WITHOUT_ID(hello, hello)
WITHOUT_ID(device_connect, device_connect)
WITHOUT_ID(interface_info, interface_info)
WITHOUT_ID(ep_info, ep_info)
WITH_ID(set_configuration)
ID_ALONE(get_configuration)
WITH_ID(configuration_status)
WITH_ID(set_alt_setting)
WITH_ID(get_alt_setting)
WITH_ID(alt_setting_status)
WITH_ID(start_iso_stream)
WITH_ID(stop_iso_stream)
WITH_ID(iso_stream_status)
WITH_ID(start_interrupt_receiving)
WITH_ID(stop_interrupt_receiving)
WITH_ID(interrupt_receiving_status)
WITH_ID(alloc_bulk_streams)
WITH_ID(free_bulk_streams)
WITH_ID(bulk_streams_status)
ID_ALONE(cancel_data_packet)
WITH_ID(start_bulk_receiving)
WITH_ID(stop_bulk_receiving)
WITH_ID(bulk_receiving_status)
WITH_DATA(control_packet)
WITH_DATA(bulk_packet)
WITH_DATA(iso_packet)
WITH_DATA(interrupt_packet)
WITH_DATA(buffered_bulk_packet)

static void on_filter(void *priv, struct usbredirfilter_rule *rules, int count)
{
    (void)count;
    counted(priv);
    free(rules);
}

/* Reads what the host sends if `reads_host`, else what the guest sends; `word` is the reading end's first capability word. */
struct side *side_new(int reads_host, uint32_t word)
{
    struct side *side = calloc(1, sizeof *side);
    struct usbredirparser *p = usbredirparser_create();
    uint32_t caps[USB_REDIR_CAPS_SIZE] = {word};

    side->parser = p;
    p->priv = side;
    p->log_func = on_log;
    p->read_func = on_read;
    p->write_func = on_write;
    p->hello_func = on_hello;
    p->device_connect_func = on_device_connect;
    p->device_disconnect_func = counted;
    p->reset_func = counted;
    p->interface_info_func = on_interface_info;
    p->ep_info_func = on_ep_info;
    p->set_configuration_func = on_set_configuration;
    p->get_configuration_func = on_get_configuration;
    p->configuration_status_func = on_configuration_status;
    p->set_alt_setting_func = on_set_alt_setting;
    p->get_alt_setting_func = on_get_alt_setting;
    p->alt_setting_status_func = on_alt_setting_status;
    p->start_iso_stream_func = on_start_iso_stream;
    p->stop_iso_stream_func = on_stop_iso_stream;
    p->iso_stream_status_func = on_iso_stream_status;
    p->start_interrupt_receiving_func = on_start_interrupt_receiving;
    p->stop_interrupt_receiving_func = on_stop_interrupt_receiving;
    p->interrupt_receiving_status_func = on_interrupt_receiving_status;
    p->alloc_bulk_streams_func = on_alloc_bulk_streams;
    p->free_bulk_streams_func = on_free_bulk_streams;
    p->bulk_streams_status_func = on_bulk_streams_status;
    p->cancel_data_packet_func = on_cancel_data_packet;
    p->control_packet_func = on_control_packet;
    p->bulk_packet_func = on_bulk_packet;
    p->iso_packet_func = on_iso_packet;
    p->interrupt_packet_func = on_interrupt_packet;
    p->filter_reject_func = counted;
    p->filter_filter_func = on_filter;
    p->device_disconnect_ack_func = counted;
    p->start_bulk_receiving_func = on_start_bulk_receiving;
    p->stop_bulk_receiving_func = on_stop_bulk_receiving;
    p->bulk_receiving_status_func = on_bulk_receiving_status;
    p->buffered_bulk_packet_func = on_buffered_bulk_packet;
    usbredirparser_init(p, "bench", caps, USB_REDIR_CAPS_SIZE,
                        usbredirparser_fl_no_hello | (reads_host ? 0 : usbredirparser_fl_usb_host));
    return side;
}

/* Reads one piece to its end. */
void side_read(struct side *side, const uint8_t *piece, size_t size)
{
    side->at = piece;
    side->left = size;
    while (usbredirparser_do_read(side->parser) == usbredirparser_read_parse_error) {
    }
}

size_t side_free(struct side *side)
{
    size_t packets = side->packets;
    usbredirparser_destroy(side->parser);
    free(side);
    return packets;
}
