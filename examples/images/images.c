/* libjpeg and libpng for a host that calls functions: files in memory to samples of a byte, row by row, and back. */
#include <setjmp.h>
#include <stdio.h>
#include <stdlib.h>
#include <string.h>

#include <jpeglib.h>
#include <png.h>

/* The most samples of a picture. */
#define MOST_SAMPLES (48u << 20)

/* The most scans of a JPEG. A progressive one has some ten, and each goes over the whole picture. */
#define MOST_SCANS 100

/* 1 channel is grey, 3 are red, green and blue, and 4 these and alpha. */
struct picture {
    int width, height, channels;
    unsigned char *samples;
};

struct file {
    size_t count;
    char *bytes;
};

/* Why the last call failed. */
static char words[JMSG_LENGTH_MAX];

const char *failure(void)
{
    return words;
}

static int fail(const char *why)
{
    snprintf(words, sizeof words, "%s", why);
    return -1;
}

static int take_samples(struct picture *picture)
{
    unsigned long long count = (unsigned long long)picture->width * picture->height * picture->channels;
    picture->samples = count == 0 || count > MOST_SAMPLES ? 0 : malloc(count);
    return picture->samples == 0 ? fail("the picture is too large") : 0;
}

/* ---- JPEG: the library leaves by a jump where a file is wrong */

static jmp_buf way_out;

static void leave(j_common_ptr coder)
{
    coder->err->format_message(coder, words);
    longjmp(way_out, 1);
}

static void say_nothing(j_common_ptr coder)
{
    (void)coder;
}

static void count_scans(j_common_ptr decoder)
{
    if (((j_decompress_ptr)decoder)->input_scan_number > MOST_SCANS) {
        fail("the picture has too many scans");
        longjmp(way_out, 1);
    }
}

static struct jpeg_error_mgr *errors(struct jpeg_error_mgr *manager)
{
    jpeg_std_error(manager);
    manager->error_exit = leave;
    manager->output_message = say_nothing;
    return manager;
}

int read_jpeg(const unsigned char *bytes, int count, struct picture *picture)
{
    struct jpeg_decompress_struct decoder;
    struct jpeg_error_mgr manager;
    struct jpeg_progress_mgr progress = {count_scans};
    memset(&decoder, 0, sizeof decoder);
    memset(picture, 0, sizeof *picture);
    decoder.err = errors(&manager);
    if (setjmp(way_out)) {
        jpeg_destroy_decompress(&decoder);
        return -1;
    }
    jpeg_create_decompress(&decoder);
    decoder.progress = &progress;
    jpeg_mem_src(&decoder, bytes, count);
    jpeg_read_header(&decoder, TRUE);
    decoder.out_color_space = decoder.jpeg_color_space == JCS_GRAYSCALE ? JCS_GRAYSCALE : JCS_RGB;
    jpeg_start_decompress(&decoder);
    picture->width = decoder.output_width;
    picture->height = decoder.output_height;
    picture->channels = decoder.output_components;
    if (take_samples(picture) < 0) {
        jpeg_destroy_decompress(&decoder);
        return -1;
    }
    while (decoder.output_scanline < decoder.output_height) {
        JSAMPROW row = picture->samples + (size_t)decoder.output_scanline * picture->width * picture->channels;
        jpeg_read_scanlines(&decoder, &row, 1);
    }
    jpeg_finish_decompress(&decoder);
    jpeg_destroy_decompress(&decoder);
    return 0;
}

int write_jpeg(const struct picture *picture, int quality, struct file *made)
{
    struct jpeg_compress_struct encoder;
    struct jpeg_error_mgr manager;
    FILE *file = open_memstream(&made->bytes, &made->count);
    if (file == 0)
        return fail("there is no memory");
    memset(&encoder, 0, sizeof encoder);
    encoder.err = errors(&manager);
    if (setjmp(way_out)) {
        jpeg_destroy_compress(&encoder);
        fclose(file);
        return -1;
    }
    jpeg_create_compress(&encoder);
    jpeg_stdio_dest(&encoder, file);
    encoder.image_width = picture->width;
    encoder.image_height = picture->height;
    encoder.input_components = picture->channels;
    encoder.in_color_space = picture->channels == 1 ? JCS_GRAYSCALE : JCS_RGB;
    jpeg_set_defaults(&encoder);
    jpeg_set_quality(&encoder, quality, TRUE);
    jpeg_start_compress(&encoder, TRUE);
    while (encoder.next_scanline < encoder.image_height) {
        JSAMPROW row = picture->samples + (size_t)encoder.next_scanline * picture->width * picture->channels;
        jpeg_write_scanlines(&encoder, &row, 1);
    }
    jpeg_finish_compress(&encoder);
    jpeg_destroy_compress(&encoder);
    return fclose(file) == 0 ? 0 : fail("the picture is too large");
}

/* ---- PNG: it leaves so as well. Colours are taken as they stand, without a correction of gamma. */

static void leave_png(png_structp coder, png_const_charp why)
{
    fail(why);
    png_longjmp(coder, 1);
}

static void say_nothing_of_png(png_structp coder, png_const_charp what)
{
    (void)coder, (void)what;
}

/* What of a file is still to be read. */
struct rest {
    size_t count;
    const unsigned char *bytes;
};

static void give(png_structp reader, png_bytep to, size_t count)
{
    struct rest *rest = png_get_io_ptr(reader);
    if (count > rest->count)
        png_error(reader, "the file ends early");
    memcpy(to, rest->bytes, count);
    rest->bytes += count;
    rest->count -= count;
}

/* Palettes, fewer bits and transparent colours become bytes; grey with alpha becomes colours with alpha. */
static int prepare(png_structp reader, png_infop facts)
{
    png_byte type = png_get_color_type(reader, facts);
    png_set_expand(reader);
    png_set_strip_16(reader);
    if (type == PNG_COLOR_TYPE_GRAY_ALPHA || (type == PNG_COLOR_TYPE_GRAY && png_get_valid(reader, facts, PNG_INFO_tRNS)))
        png_set_gray_to_rgb(reader);
    int passes = png_set_interlace_handling(reader);
    png_read_update_info(reader, facts);
    return passes;
}

int read_png(const unsigned char *bytes, int count, struct picture *picture)
{
    png_structp reader = png_create_read_struct(PNG_LIBPNG_VER_STRING, 0, leave_png, say_nothing_of_png);
    png_infop facts = reader == 0 ? 0 : png_create_info_struct(reader);
    struct rest rest = {count, bytes};
    memset(picture, 0, sizeof *picture);
    if (facts == 0) {
        png_destroy_read_struct(&reader, &facts, 0);
        return fail("there is no memory");
    }
    if (setjmp(png_jmpbuf(reader))) {
        png_destroy_read_struct(&reader, &facts, 0);
        return -1;
    }
    png_set_read_fn(reader, &rest, give);
    png_read_info(reader, facts);
    int passes = prepare(reader, facts);
    picture->width = png_get_image_width(reader, facts);
    picture->height = png_get_image_height(reader, facts);
    picture->channels = png_get_channels(reader, facts);
    if (take_samples(picture) < 0) {
        png_destroy_read_struct(&reader, &facts, 0);
        return -1;
    }
    memset(picture->samples, 0, (size_t)picture->width * picture->height * picture->channels);
    while (passes-- > 0)
        for (int y = 0; y < picture->height; y++)
            png_read_row(reader, picture->samples + (size_t)y * picture->width * picture->channels, 0);
    png_read_end(reader, facts);
    png_destroy_read_struct(&reader, &facts, 0);
    return 0;
}

int write_png(const struct picture *picture, struct file *made)
{
    png_image image;
    png_alloc_size_t count;
    memset(&image, 0, sizeof image);
    image.version = PNG_IMAGE_VERSION;
    image.width = picture->width;
    image.height = picture->height;
    image.format = picture->channels == 1 ? PNG_FORMAT_GRAY : picture->channels == 3 ? PNG_FORMAT_RGB : PNG_FORMAT_RGBA;
    count = PNG_IMAGE_PNG_SIZE_MAX(image);
    made->bytes = malloc(count);
    if (made->bytes == 0)
        return fail("the picture is too large");
    if (!png_image_write_to_memory(&image, made->bytes, &count, 0, picture->samples, 0, 0))
        return fail(image.message);
    made->count = count;
    return 0;
}
