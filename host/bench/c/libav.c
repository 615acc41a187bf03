/* libavcodec's decoders of Interplay video and sound and of Microsoft Video 1, as the bench calls them: pictures of one
   size, 8-bit or with true colour, compressed sound of one or two channels; one thread. */

#include <libavcodec/avcodec.h>
#include <limits.h>
#include <stddef.h>
#include <stdint.h>
#include <stdlib.h>
#include <string.h>

enum { BLOCK_SIDE = 8 }; /* pixels */

struct libav {
    AVCodecContext *context;
    AVFrame *frame; /* decoded last */
    int columns;    /* of blocks, of a decoder of pictures */
    int rows;
    int channels; /* of a decoder of sound */
};

unsigned libav_version(void)
{
    return avcodec_version();
}

void libav_close(struct libav *decoder)
{
    if (!decoder)
        return;
    avcodec_free_context(&decoder->context);
    av_frame_free(&decoder->frame);
    free(decoder);
}

/* A decoder to be set up; null where libavcodec has none such. */
static struct libav *new_decoder(enum AVCodecID id)
{
    const AVCodec *codec = avcodec_find_decoder(id);
    struct libav *decoder = calloc(1, sizeof *decoder);
    if (!codec || !decoder)
        goto failed;
    av_log_set_level(AV_LOG_ERROR);
    decoder->context = avcodec_alloc_context3(codec);
    decoder->frame = av_frame_alloc();
    if (!decoder->context || !decoder->frame)
        goto failed;
    decoder->context->thread_count = 1;
    return decoder;
failed:
    libav_close(decoder);
    return NULL;
}

/* The decoder that was set up; null where libavcodec cannot open it. */
static struct libav *opened(struct libav *decoder)
{
    if (avcodec_open2(decoder->context, NULL, NULL) == 0)
        return decoder;
    libav_close(decoder);
    return NULL;
}

/* A decoder of pictures of 8 or 16 bits a pixel; null where libavcodec has no such decoder or cannot open it. libavcodec is
   told the size in pixels. */
static struct libav *open_pictures(enum AVCodecID id, int columns, int rows, int bits)
{
    struct libav *decoder = new_decoder(id);
    if (!decoder)
        return NULL;
    decoder->columns = columns;
    decoder->rows = rows;
    decoder->context->width = BLOCK_SIDE * columns;
    decoder->context->height = BLOCK_SIDE * rows;
    decoder->context->bits_per_coded_sample = bits;
    return opened(decoder);
}

struct libav *libav_open(int columns, int rows)
{
    return open_pictures(AV_CODEC_ID_INTERPLAY_VIDEO, columns, rows, 8);
}

struct libav *libav_open_words(int columns, int rows)
{
    return open_pictures(AV_CODEC_ID_INTERPLAY_VIDEO, columns, rows, 16);
}

struct libav *libav_open_video1(int columns, int rows)
{
    return open_pictures(AV_CODEC_ID_MSVIDEO1, columns, rows, 8);
}

/* Null where libavcodec has no such decoder or cannot open it. */
struct libav *libav_open_sound(int channels)
{
    struct libav *decoder = new_decoder(AV_CODEC_ID_INTERPLAY_DPCM);
    if (!decoder)
        return NULL;
    decoder->channels = channels;
    decoder->context->sample_rate = 22050;
#if LIBAVCODEC_VERSION_INT >= AV_VERSION_INT(59, 24, 100)
    av_channel_layout_default(&decoder->context->ch_layout, channels);
#else
    decoder->context->channels = channels;
#endif
    return opened(decoder);
}

void libav_packet_free(AVPacket *packet)
{
    av_packet_free(&packet);
}

/* A counted copy of the bytes: sending a packet that is not counted would copy it each time. */
AVPacket *libav_packet(const uint8_t *bytes, size_t length)
{
    AVPacket *packet = av_packet_alloc();
    if (!packet || length > INT_MAX || av_new_packet(packet, (int)length) < 0) {
        libav_packet_free(packet);
        return NULL;
    }
    memcpy(packet->data, bytes, length);
    return packet;
}

/* Decodes a packet of pictures or of sound: what the bench times. 0, or libavcodec's number of an error. */
int libav_decode(struct libav *decoder, const AVPacket *packet)
{
    int sent = avcodec_send_packet(decoder->context, packet);
    return sent < 0 ? sent : avcodec_receive_frame(decoder->context, decoder->frame);
}

/* Writes the rows of the frame decoded last, one behind the other. 0 where it is not a frame of the size and format. */
static int write_rows(const struct libav *decoder, uint8_t *picture, enum AVPixelFormat format, int bytes)
{
    const AVFrame *frame = decoder->frame;
    int width = BLOCK_SIDE * decoder->columns, height = BLOCK_SIDE * decoder->rows;
    size_t row = (size_t)width * (size_t)bytes;
    if (!frame->data[0] || frame->format != (int)format || frame->width != width || frame->height != height)
        return 0;
    for (int y = 0; y < height; y++)
        memcpy(picture + (size_t)y * row, frame->data[0] + (ptrdiff_t)y * frame->linesize[0], row);
    return 1;
}

/* A byte a pixel. */
int libav_picture(const struct libav *decoder, uint8_t *picture)
{
    return write_rows(decoder, picture, AV_PIX_FMT_PAL8, 1);
}

/* A word a pixel, low byte first. */
int libav_words(const struct libav *decoder, uint8_t *picture)
{
    return write_rows(decoder, picture, AV_PIX_FMT_RGB555LE, 2);
}

/* Gives the frame decoded last back. */
void libav_release(struct libav *decoder)
{
    av_frame_unref(decoder->frame);
}

/* Writes the samples of the frame decoded last, left and right in turn, where there is room for so many. Their number; -1
   where it is not a frame of packed 16-bit samples. */
int libav_samples(const struct libav *decoder, int16_t *samples, size_t room)
{
    const AVFrame *frame = decoder->frame;
    size_t count = (size_t)frame->nb_samples * (size_t)decoder->channels;
    if (!frame->data[0] || frame->format != AV_SAMPLE_FMT_S16 || count > INT_MAX)
        return -1;
    if (count <= room)
        memcpy(samples, frame->data[0], count * sizeof *samples);
    return (int)count;
}
