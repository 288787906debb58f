/* G.722 by ffmpeg's libavcodec, in calls of 160 octets from one buffer in memory.
   avcodec code|decode PASSES <in >out
   Samples are 16 bits in the machine's order, of twice our scale. The last pass's output is written. */
#include <stdint.h>
#include <stdlib.h>
#include <string.h>
#include <libavcodec/avcodec.h>
#include "whole.h"

static void must(int fine)
{
    if (!fine)
        exit(3);
}

int main(int argc, char **argv)
{
    if (argc != 3)
        return 2;
    int coding = strcmp(argv[1], "code") == 0, passes = atoi(argv[2]);
    size_t size;
    uint8_t *in = read_whole(&size);
    size_t octets = coding ? size / 4 : size;
    uint8_t *out = calloc(octets + 1, 4);

    const AVCodec *codec = coding ? avcodec_find_encoder(AV_CODEC_ID_ADPCM_G722) : avcodec_find_decoder(AV_CODEC_ID_ADPCM_G722);
    AVCodecContext *c = avcodec_alloc_context3(codec);
    c->sample_fmt = AV_SAMPLE_FMT_S16;
    c->sample_rate = 16000;
    c->frame_size = 2 * CALL;
    av_channel_layout_default(&c->ch_layout, 1);
    must(avcodec_open2(c, codec, NULL) == 0);
    AVFrame *frame = av_frame_alloc();
    AVPacket *packet = av_packet_alloc();
    if (coding) {
        must(c->frame_size == 2 * CALL);
        frame->format = AV_SAMPLE_FMT_S16;
        frame->sample_rate = 16000;
        frame->nb_samples = 2 * CALL;
        av_channel_layout_default(&frame->ch_layout, 1);
        must(av_frame_get_buffer(frame, 0) == 0);
    }
    for (int pass = 0; pass < passes; pass++)
        for (size_t i = 0; i < octets; i += CALL) {
            int n = octets - i < CALL ? octets - i : CALL;
            if (coding) {
                must(av_frame_make_writable(frame) == 0);
                frame->nb_samples = 2 * n;
                memcpy(frame->data[0], in + 4 * i, 4 * n);
                must(avcodec_send_frame(c, frame) == 0 && avcodec_receive_packet(c, packet) == 0 && packet->size >= n);
                memcpy(out + i, packet->data, n);
                av_packet_unref(packet);
            } else {
                packet->data = in + i;
                packet->size = n;
                must(avcodec_send_packet(c, packet) == 0 && avcodec_receive_frame(c, frame) == 0 && frame->nb_samples == 2 * n);
                memcpy(out + 4 * i, frame->data[0], 4 * n);
            }
        }
    write_whole(out, coding ? octets : 4 * octets);
    return 0;
}
