/* ffmpeg as a peer: its filter lut3d, tetrahedral, or lut1d, linear, on one thread. A frame goes in and a frame comes out.
 * It is built twice, since ffmpeg has other code for other layouts: as it stands the colours of a pixel lie side by side in the
 * frames, and with PLANES each colour has a plane of its own. */
#include <libavfilter/avfilter.h>
#include <libavfilter/buffersink.h>
#include <libavfilter/buffersrc.h>
#include <libavutil/frame.h>
#include <libavutil/log.h>
#include <libavutil/mem.h>
#include <libavutil/opt.h>
#include <libavutil/pixdesc.h>
#include <stdio.h>
#include <string.h>

#include "peer.h"

static AVFilterContext *source, *sink;
static AVFrame *raw_frame, *corrected_frame;
static unsigned char *corrected_line;
static size_t code_size;

const char *peer_version(void) { return av_version_info(); }

/* The name of the table's file is set as an option of its own: in a text of options some of its characters would be others. */
static AVFilterContext *table_filter(AVFilterGraph *graph, const char *cube, enum kind kind) {
    const char *name = kind == THREE_D ? "lut3d" : "lut1d";
    const char *interpolation = kind == THREE_D ? "tetrahedral" : "linear";
    AVFilterContext *filter = avfilter_graph_alloc_filter(graph, avfilter_get_by_name(name), "table");
    demand(filter != NULL, "ffmpeg has no such filter");
    demand(av_opt_set(filter, "file", cube, AV_OPT_SEARCH_CHILDREN) >= 0 &&
               av_opt_set(filter, "interp", interpolation, AV_OPT_SEARCH_CHILDREN) >= 0 &&
               avfilter_init_str(filter, NULL) >= 0,
           "ffmpeg does not take the table");
    return filter;
}

static enum AVPixelFormat format_of(const struct picture *raw) {
#ifdef PLANES
    return raw->bits == 8 ? AV_PIX_FMT_GBRP : AV_PIX_FMT_GBRP16;
#else
    return raw->bits == 8 ? AV_PIX_FMT_RGB24 : AV_PIX_FMT_RGB48;
#endif
}

/* Where a colour of pixel x in line y lies in a frame, whatever its layout: 0 is red, 1 green and 2 blue. */
static unsigned char *place(const AVFrame *frame, int colour, int x, int y) {
    const AVComponentDescriptor *layout = &av_pix_fmt_desc_get((enum AVPixelFormat)frame->format)->comp[colour];
    ptrdiff_t line = (ptrdiff_t)y * frame->linesize[layout->plane];
    return frame->data[layout->plane] + line + (ptrdiff_t)x * layout->step + layout->offset;
}

static AVFrame *frame_of(const struct picture *raw, enum AVPixelFormat format) {
    AVFrame *frame = av_frame_alloc();
    demand(frame != NULL, "there is no memory");
    frame->width = raw->width, frame->height = raw->height, frame->format = format;
    demand(av_frame_get_buffer(frame, 0) >= 0, "there is no memory");
    const unsigned char *code = raw->codes;
    for (int y = 0; y < raw->height; y++) {
        for (int x = 0; x < raw->width; x++) {
            for (int colour = 0; colour < 3; colour++, code += code_size) {
                memcpy(place(frame, colour, x, y), code, code_size);
            }
        }
    }
    return frame;
}

void peer_prepare(const char *cube, enum kind kind, const struct picture *raw) {
    enum AVPixelFormat format = format_of(raw);
    AVFilterGraph *graph = avfilter_graph_alloc();
    char shape[100];
    av_log_set_level(AV_LOG_ERROR);
    demand(graph != NULL, "there is no memory");
    graph->nb_threads = 1;
    snprintf(shape, sizeof shape, "video_size=%dx%d:pix_fmt=%d:time_base=1/1", raw->width, raw->height, (int)format);
    demand(avfilter_graph_create_filter(&source, avfilter_get_by_name("buffer"), "raw", shape, NULL, graph) >= 0 &&
               avfilter_graph_create_filter(&sink, avfilter_get_by_name("buffersink"), "corrected", NULL, NULL, graph) >= 0,
           "ffmpeg does not take the picture");
    AVFilterContext *filter = table_filter(graph, cube, kind);
    demand(avfilter_link(source, 0, filter, 0) >= 0 && avfilter_link(filter, 0, sink, 0) >= 0 &&
               avfilter_graph_config(graph, NULL) >= 0,
           "ffmpeg does not join its filters");
    /* where the codes had to be converted, ffmpeg would have put in a fourth filter */
    demand(graph->nb_filters == 3 && av_buffersink_get_format(sink) == (int)format, "ffmpeg converts the codes");
    code_size = (size_t)raw->bits / 8;
    raw_frame = frame_of(raw, format);
    corrected_frame = av_frame_alloc();
    corrected_line = av_malloc(raw->line_size);
    demand(corrected_frame != NULL && corrected_line != NULL, "there is no memory");
}

void peer_correct(void) {
    av_frame_unref(corrected_frame);
    demand(av_buffersrc_add_frame_flags(source, raw_frame, AV_BUFFERSRC_FLAG_KEEP_REF) >= 0, "ffmpeg does not take the frame");
    demand(av_buffersink_get_frame(sink, corrected_frame) >= 0, "ffmpeg gives no frame");
}

const unsigned char *peer_line(int y) {
    unsigned char *code = corrected_line;
    for (int x = 0; x < corrected_frame->width; x++) {
        for (int colour = 0; colour < 3; colour++, code += code_size) {
            memcpy(code, place(corrected_frame, colour, x, y), code_size);
        }
    }
    return corrected_line;
}
