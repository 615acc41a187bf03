/* A film in memory, played by libavformat and libavcodec as players do it: the reader of MVE films splits it into
   packets, a decoder for each stream gives pictures and samples. And frames of Microsoft Video 1, decoded by libavcodec. One
   thread; nothing is logged. */

#include <libavcodec/avcodec.h>
#include <libavformat/avformat.h>
#include <limits.h>
#include <stddef.h>
#include <stdint.h>
#include <stdlib.h>
#include <string.h>

enum { READ_AHEAD = 4096, STREAMS = 2, ENTRIES = 256 };

enum kind { END, PICTURE, SAMPLES, FAULT };

/* What comes next in a film. */
struct event {
    int kind;         /* an enum kind */
    int error;        /* of END and FAULT: libav's number; 0 at the end of the film */
    int width;        /* of PICTURE, in pixels */
    int height;       /* the same */
    int deep;         /* the same: 1 with true colour */
    int channels;     /* of SAMPLES */
    int sample_bytes; /* the same: 1 or 2 */
    int samples;      /* the same, of one channel */
};

struct player {
    const uint8_t *film;
    size_t length;
    size_t position; /* in the film, of what is read next */
    AVIOContext *io;
    AVFormatContext *format;
    AVCodecContext *decoders[STREAMS];
    AVCodecContext *fed; /* the decoder that may have more to give */
    AVPacket *packet;
    AVFrame *frame; /* decoded last */
};

unsigned libav_format_version(void)
{
    return avformat_version();
}

unsigned libav_codec_version(void)
{
    return avcodec_version();
}

/* Whether both libraries were built with what plays MVE films and decodes Microsoft Video 1. */
int libav_plays_films(void)
{
    return av_find_input_format("ipmovie") && avcodec_find_decoder(AV_CODEC_ID_INTERPLAY_VIDEO) &&
           avcodec_find_decoder(AV_CODEC_ID_INTERPLAY_DPCM) && avcodec_find_decoder(AV_CODEC_ID_PCM_S16LE) &&
           avcodec_find_decoder(AV_CODEC_ID_PCM_U8) && avcodec_find_decoder(AV_CODEC_ID_MSVIDEO1);
}

static int read_film(void *opaque, uint8_t *bytes, int length)
{
    struct player *player = opaque;
    size_t left = player->position < player->length ? player->length - player->position : 0;
    size_t count = left < (size_t)length ? left : (size_t)length;
    if (count == 0)
        return AVERROR_EOF;
    memcpy(bytes, player->film + player->position, count);
    player->position += count;
    return (int)count;
}

/* As in a file: a position behind the end is one at which nothing is read. libavformat counts every offset from the
   start. */
static int64_t seek_film(void *opaque, int64_t offset, int whence)
{
    struct player *player = opaque;
    if (whence & AVSEEK_SIZE)
        return (int64_t)player->length;
    if ((whence & ~AVSEEK_FORCE) != SEEK_SET || offset < 0)
        return AVERROR(EINVAL);
    player->position = (size_t)offset;
    return offset;
}

void libav_close(struct player *player)
{
    if (!player)
        return;
    for (int stream = 0; stream < STREAMS; stream++)
        avcodec_free_context(&player->decoders[stream]);
    avformat_close_input(&player->format);
    if (player->io)
        av_freep(&player->io->buffer);
    avio_context_free(&player->io);
    av_packet_free(&player->packet);
    av_frame_free(&player->frame);
    free(player);
}

/* A player of a film that is not opened yet; null where there is no memory. */
static struct player *new_player(const uint8_t *film, size_t length)
{
    struct player *player = calloc(1, sizeof *player);
    if (!player)
        return NULL;
    player->film = film;
    player->length = length;
    player->packet = av_packet_alloc();
    player->frame = av_frame_alloc();
    player->format = avformat_alloc_context();
    uint8_t *buffer = av_malloc(READ_AHEAD);
    if (buffer)
        player->io = avio_alloc_context(buffer, READ_AHEAD, 0, player, read_film, NULL, seek_film);
    if (player->packet && player->frame && player->format && player->io)
        return player;
    if (!player->io)
        av_free(buffer);
    libav_close(player);
    return NULL;
}

/* Opens a film, which must stay where it is until libav_close. Null where libavformat does not take it as an MVE film:
   *error is libav's number then. */
struct player *libav_open(const uint8_t *film, size_t length, int *error)
{
    av_log_set_level(AV_LOG_QUIET);
    *error = AVERROR(ENOMEM);
    struct player *player = new_player(film, length);
    if (!player)
        return NULL;
    player->format->pb = player->io;
    *error = avformat_open_input(&player->format, NULL, NULL, NULL);
    if (*error == 0 && strcmp(player->format->iformat->name, "ipmovie") != 0)
        *error = AVERROR_DEMUXER_NOT_FOUND;
    if (*error == 0)
        return player;
    libav_close(player);
    return NULL;
}

/* The decoder of a stream, opened at its first packet. 0, or libav's number. */
static int open_decoder(struct player *player, int stream)
{
    if (stream >= STREAMS)
        return AVERROR_STREAM_NOT_FOUND;
    if (player->decoders[stream])
        return 0;
    const AVCodecParameters *parameters = player->format->streams[stream]->codecpar;
    const AVCodec *codec = avcodec_find_decoder(parameters->codec_id);
    AVCodecContext *decoder = codec ? avcodec_alloc_context3(codec) : NULL;
    if (!decoder)
        return AVERROR_DECODER_NOT_FOUND;
    decoder->thread_count = 1;
    int error = avcodec_parameters_to_context(decoder, parameters);
    if (error >= 0)
        error = avcodec_open2(decoder, codec, NULL);
    if (error < 0)
        avcodec_free_context(&decoder);
    player->decoders[stream] = decoder;
    return error;
}

/* Hands the packet that was read to its decoder. 0, or libav's number. */
static int feed(struct player *player)
{
    int stream = player->packet->stream_index;
    int error = open_decoder(player, stream);
    if (error >= 0) {
        player->fed = player->decoders[stream];
        error = avcodec_send_packet(player->fed, player->packet);
    }
    av_packet_unref(player->packet);
    return error;
}

static int channels_of(const AVFrame *frame)
{
#if LIBAVCODEC_VERSION_INT >= AV_VERSION_INT(59, 24, 100)
    return frame->ch_layout.nb_channels;
#else
    return frame->channels;
#endif
}

/* The event of the frame decoded last. */
static struct event event_of(const struct player *player)
{
    const AVFrame *frame = player->frame;
    if (player->fed->codec_type == AVMEDIA_TYPE_AUDIO) {
        int bytes = frame->format == AV_SAMPLE_FMT_U8 ? 1 : frame->format == AV_SAMPLE_FMT_S16 ? 2 : 0;
        if (bytes)
            return (struct event){.kind = SAMPLES, .channels = channels_of(frame), .sample_bytes = bytes,
                                  .samples = frame->nb_samples};
    } else if (frame->format == AV_PIX_FMT_PAL8 || frame->format == AV_PIX_FMT_RGB555) {
        return (struct event){.kind = PICTURE, .width = frame->width, .height = frame->height,
                              .deep = frame->format == AV_PIX_FMT_RGB555};
    }
    return (struct event){.kind = FAULT, .error = AVERROR_PATCHWELCOME};
}

/* Plays on to the next picture or samples, the next packet that is not decoded, or the end. */
struct event libav_next(struct player *player)
{
    for (;;) {
        int error = player->fed ? avcodec_receive_frame(player->fed, player->frame) : AVERROR(EAGAIN);
        if (error == 0)
            return event_of(player);
        player->fed = NULL;
        if (error != AVERROR(EAGAIN))
            return (struct event){.kind = FAULT, .error = error};
        error = av_read_frame(player->format, player->packet);
        if (error < 0)
            return (struct event){.kind = END, .error = error == AVERROR_EOF ? 0 : error};
        error = feed(player);
        if (error < 0) {
            player->fed = NULL;
            return (struct event){.kind = FAULT, .error = error};
        }
    }
}

/* Writes the pixels of the picture decoded last, row by row, and the red, green and blue of each palette entry, 8 bits
   each. */
void libav_picture(const struct player *player, uint8_t *pixels, uint8_t *colours)
{
    const AVFrame *frame = player->frame;
    for (int y = 0; y < frame->height; y++)
        memcpy(pixels + (ptrdiff_t)y * frame->width, frame->data[0] + (ptrdiff_t)y * frame->linesize[0], frame->width);
    for (int entry = 0; entry < ENTRIES; entry++) {
        uint32_t colour;
        memcpy(&colour, frame->data[1] + 4 * entry, sizeof colour);
        for (int component = 0; component < 3; component++)
            *colours++ = (uint8_t)(colour >> (16 - 8 * component));
    }
}

/* Writes the words of the picture with true colour decoded last, row by row. */
void libav_words(const struct player *player, uint16_t *words)
{
    const AVFrame *frame = player->frame;
    for (int y = 0; y < frame->height; y++)
        memcpy(words + (ptrdiff_t)y * frame->width, frame->data[0] + (ptrdiff_t)y * frame->linesize[0],
               (size_t)frame->width * sizeof *words);
}

/* Writes the samples decoded last, left and right in turn. */
void libav_samples(const struct player *player, uint8_t *bytes)
{
    const AVFrame *frame = player->frame;
    size_t sample_bytes = (size_t)av_get_bytes_per_sample(frame->format);
    memcpy(bytes, frame->data[0], sample_bytes * (size_t)channels_of(frame) * (size_t)frame->nb_samples);
}

/* A decoder of frames of Microsoft Video 1, which keeps its picture from frame to frame. */
struct trailer {
    AVCodecContext *decoder;
    AVPacket *packet;
    AVFrame *frame;
};

void libav_trailer_close(struct trailer *trailer)
{
    if (!trailer)
        return;
    avcodec_free_context(&trailer->decoder);
    av_packet_free(&trailer->packet);
    av_frame_free(&trailer->frame);
    free(trailer);
}

/* A decoder of 8-bit frames of this size in pixels; null where it cannot be opened. */
struct trailer *libav_trailer_open(int width, int height)
{
    av_log_set_level(AV_LOG_QUIET);
    const AVCodec *codec = avcodec_find_decoder(AV_CODEC_ID_MSVIDEO1);
    struct trailer *trailer = calloc(1, sizeof *trailer);
    if (codec && trailer) {
        trailer->decoder = avcodec_alloc_context3(codec);
        trailer->packet = av_packet_alloc();
        trailer->frame = av_frame_alloc();
        if (trailer->decoder && trailer->packet && trailer->frame) {
            trailer->decoder->thread_count = 1;
            trailer->decoder->width = width;
            trailer->decoder->height = height;
            trailer->decoder->bits_per_coded_sample = 8;
            if (avcodec_open2(trailer->decoder, codec, NULL) == 0)
                return trailer;
        }
    }
    libav_trailer_close(trailer);
    return NULL;
}

/* Decodes a frame and writes the picture, row by row. 0, or libav's number. */
int libav_trailer_next(struct trailer *trailer, const uint8_t *data, size_t length, uint8_t *pixels)
{
    int width = trailer->decoder->width, height = trailer->decoder->height;
    if (length > INT_MAX)
        return AVERROR(EINVAL);
    int error = av_new_packet(trailer->packet, (int)length);
    if (error < 0)
        return error;
    memcpy(trailer->packet->data, data, length);
    error = avcodec_send_packet(trailer->decoder, trailer->packet);
    av_packet_unref(trailer->packet);
    if (error >= 0)
        error = avcodec_receive_frame(trailer->decoder, trailer->frame);
    if (error < 0)
        return error;
    const AVFrame *frame = trailer->frame;
    if (frame->format != AV_PIX_FMT_PAL8 || frame->width != width || frame->height != height)
        return AVERROR_PATCHWELCOME;
    for (int y = 0; y < height; y++)
        memcpy(pixels + (ptrdiff_t)y * width, frame->data[0] + (ptrdiff_t)y * frame->linesize[0], width);
    return 0;
}
