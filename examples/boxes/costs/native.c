/* The jobs by the libraries as this compiler makes them. */
#include "costs.h"

#include <expat.h>
#include <png.h>
#include <string.h>

uint32_t native_picture(const Job *job, uint8_t *pixels) {
    png_image image;
    memset(&image, 0, sizeof image);
    image.version = PNG_IMAGE_VERSION;
    need(png_image_begin_read_from_memory(&image, job->bytes, job->len), "no picture");
    image.format = PNG_FORMAT_RGB;
    need(PNG_IMAGE_SIZE(image) <= PIXELS_MAX && png_image_finish_read(&image, NULL, pixels, 0, NULL), "no picture");
    return PNG_IMAGE_SIZE(image);
}

typedef struct Told {
    OnName on_name;
    void *user;
} Told;

static void XMLCALL on_start(void *user, const XML_Char *name, const XML_Char **attributes) {
    const Told *told = user;
    (void)attributes;
    told->on_name(told->user, name);
}

void native_document(const Job *job, OnName on_name, void *user) {
    Told told = {on_name, user};
    XML_Parser parser = XML_ParserCreate(NULL);
    need(parser != NULL, "no parser");
    XML_SetUserData(parser, &told);
    XML_SetElementHandler(parser, job->kind == DOCUMENT ? on_start : NULL, NULL);
    need(XML_Parse(parser, (const char *)job->bytes, (int)job->len, 1) == XML_STATUS_OK, "no document");
    XML_ParserFree(parser);
}

static void count(void *user, const char *name) {
    add_name(user, name);
}

uint64_t native_do(const Job *job, uint8_t *pixels, Made *made) {
    uint64_t begun = processor_time(), ended;
    uint32_t len = 0;
    memset(made, 0, sizeof *made);
    if (job->kind == PICTURE) {
        len = native_picture(job, pixels);
    } else {
        native_document(job, count, made);
    }
    ended = processor_time();
    if (job->kind == PICTURE) {
        add_pixels(made, pixels, len);
    }
    return ended - begun;
}
