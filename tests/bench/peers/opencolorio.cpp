// OpenColorIO as a peer: its processor for a .cube file, tetrahedral or linear. One call of apply is one thread's work.
#include <OpenColorIO/OpenColorIO.h>
#include <memory>
#include <vector>

#include "peer.h"

namespace OCIO = OCIO_NAMESPACE;

static OCIO::ConstCPUProcessorRcPtr processor;
static std::unique_ptr<OCIO::PackedImageDesc> raw_image, corrected_image;
static std::vector<unsigned char> corrected_codes;
static size_t line_size;

const char *peer_version() { return OCIO::GetVersion(); }

static std::unique_ptr<OCIO::PackedImageDesc> image_of(const picture &shape, unsigned char *codes) {
    auto depth = shape.bits == 8 ? OCIO::BIT_DEPTH_UINT8 : OCIO::BIT_DEPTH_UINT16;
    ptrdiff_t code_size = shape.bits / 8;
    return std::make_unique<OCIO::PackedImageDesc>(codes, shape.width, shape.height, OCIO::CHANNEL_ORDERING_RGB, depth, code_size,
                                                   3 * code_size, ptrdiff_t(shape.line_size));
}

static OCIO::ConstCPUProcessorRcPtr processor_of(const char *cube, kind kind, int bits) {
    auto depth = bits == 8 ? OCIO::BIT_DEPTH_UINT8 : OCIO::BIT_DEPTH_UINT16;
    auto transform = OCIO::FileTransform::Create();
    transform->setSrc(cube);
    transform->setInterpolation(kind == THREE_D ? OCIO::INTERP_TETRAHEDRAL : OCIO::INTERP_LINEAR);
    return OCIO::Config::CreateRaw()->getProcessor(transform)->getOptimizedCPUProcessor(depth, depth, OCIO::OPTIMIZATION_DEFAULT);
}

void peer_prepare(const char *cube, kind kind, const picture *raw) {
    OCIO::SetLoggingLevel(OCIO::LOGGING_LEVEL_NONE);
    try {
        processor = processor_of(cube, kind, raw->bits);
    } catch (const OCIO::Exception &trouble) {
        demand(false, trouble.what());
    }
    line_size = raw->line_size;
    corrected_codes.resize(line_size * size_t(raw->height));
    raw_image = image_of(*raw, raw->codes);
    corrected_image = image_of(*raw, corrected_codes.data());
}

void peer_correct() { processor->apply(*raw_image, *corrected_image); }

const unsigned char *peer_line(int y) { return corrected_codes.data() + size_t(y) * line_size; }
