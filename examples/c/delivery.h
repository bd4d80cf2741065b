/* delivery.h: the five files of a delivery, read whole. */
#ifndef DELIVERY_H
#define DELIVERY_H

#include <stdint.h>
#include <stdio.h>
#include <stdlib.h>

struct slice {
    uint8_t *bytes;
    size_t length;
};

struct delivery {
    struct slice records, names, references, registry, rows;
};

static void stop(const char *what, const char *name)
{
    fprintf(stderr, "%s: %s\n", name, what);
    exit(2);
}

static struct slice read_file(const char *folder, const char *name)
{
    char path[4096];
    struct slice file = {NULL, 0};
    FILE *stream;
    long length;
    if ((size_t)snprintf(path, sizeof path, "%s/%s", folder, name) >= sizeof path)
        stop("the name is too long", name);
    stream = fopen(path, "rb");
    if (stream == NULL || fseek(stream, 0, SEEK_END) != 0 || (length = ftell(stream)) < 0)
        stop("can't be read", path);
    rewind(stream);
    /* An empty file needs no bytes: a null pointer of length 0 is an empty slice. */
    if (length > 0 && (file.bytes = malloc((size_t)length)) == NULL)
        stop("can't be held", path);
    file.length = length > 0 ? fread(file.bytes, 1, (size_t)length, stream) : 0;
    if (file.length != (size_t)length)
        stop("can't be read whole", path);
    fclose(stream);
    return file;
}

static struct delivery read_delivery(const char *folder)
{
    struct delivery delivery;
    delivery.records = read_file(folder, "schema.rec");
    delivery.names = read_file(folder, "schema.nam");
    delivery.references = read_file(folder, "tables.ref");
    delivery.registry = read_file(folder, "registry.reg");
    delivery.rows = read_file(folder, "rows.skf");
    return delivery;
}

/* The parameters of a call that say under which format. */
#define FORMAT_OF(delivery) \
    (delivery).records.bytes, (delivery).records.length, (delivery).names.bytes, (delivery).names.length, \
        (delivery).references.bytes, (delivery).references.length, (delivery).registry.bytes, \
        (delivery).registry.length

/* And under which settings: both limits of blobs have the same default. */
#define DEFAULT_SETTINGS \
    SKIFF_DEFAULT_NODE_CHARGE, SKIFF_DEFAULT_MAX_BLOB_BYTES, SKIFF_DEFAULT_MAX_BLOB_BYTES, SKIFF_DEFAULT_MAX_ROW_BYTES

#endif
