#include "reader.h"

#include "nardcorbel_nodes.h"

/* LOAD_OPTION_ACTIVE, how many bytes come before a description, and the type of an end node. */
enum { ACTIVE = 1, HEAD = 6, END = 0x7f };

static bool refuse(struct reader *reader, size_t offset, const char *part, const char *reason)
{
    reader->fault = (struct reader_fault){offset, part, reason};
    reader->has_ended = true;
    return false;
}

/* Reads the description, which has `length` units and a NUL from HEAD on. A surrogate in it is a fault of its own. */
static void read_description(struct reader *reader, size_t length)
{
    size_t fault = 0;
    nard_status status = nard_units_from_bytes(reader->bytes + HEAD, 2 * (length + 1), reader->description, READER_MOST_UNITS, NULL);
    if (status == NARD_OK)
        status = nard_string_check(reader->description, length + 1, NULL, &fault);
    if (status != NARD_OK)
        reader->description_fault = (struct reader_fault){HEAD + 2 * fault, "description: ", nard_status_text(status)};
    reader->description_length = length;
}

bool reader_begin(struct reader *reader, const uint8_t *bytes, size_t size)
{
    static const struct reader_fault none;
    reader->bytes = bytes;
    reader->size = size;
    reader->has_ended = reader->is_active = false;
    reader->description_length = reader->path_length = reader->disk_size = 0;
    reader->fault = reader->description_fault = none;
    struct nard_load_option_parts option;
    size_t fault = 0, length = 0;
    if (READER_MOST_BYTES < size)
        return refuse(reader, READER_MOST_BYTES, "", "the entry is too long");
    nard_status status = nard_load_option_check(bytes, size, &option, &fault);
    if (status == NARD_OPTION_TOO_SHORT || nard_packed_length(bytes + HEAD, size - HEAD, &length) != NARD_OK)
        return refuse(reader, fault, "", nard_status_text(status));
    /* All other faults are after the description, or in the length of the list after it. */
    read_description(reader, length);
    reader->is_active = (bytes[0] & ACTIVE) != 0;
    if (status == NARD_LIST_BEYOND_END)
        return refuse(reader, fault, "", nard_status_text(status));
    if (status != NARD_OK)
        reader->fault = (struct reader_fault){fault, "", nard_status_text(status)};
    reader->at = HEAD + 2 * (length + 1);
    reader->end = status == NARD_OK ? option.optional_data_offset : fault;
    return true;
}

/* Adds the path of a file path node. One separator joins two nodes, even if both bring one. */
static bool add_path(struct reader *reader, struct nard_device_node node)
{
    size_t text = node.data_offset, length = 0, fault = 0;
    nard_status status = nard_units_from_bytes(reader->bytes + text, node.data_size, reader->node, READER_MOST_UNITS, &length);
    if (status != NARD_OK)
        return refuse(reader, text + node.data_size - 1, "file path: ", nard_status_text(status));
    status = nard_string_check(reader->node, length, NULL, &fault);
    if (status != NARD_OK)
        return refuse(reader, text + 2 * fault, "file path: ", nard_status_text(status));
    bool brings_separator = reader->node[0] == '\\' || reader->node[0] == '/';
    size_t start = reader->path_length > 0 && brings_separator;
    status = nard_path_push(reader->path, READER_MOST_UNITS, reader->path_length, reader->node + start, length - start,
                            &reader->path_length, NULL);
    return status == NARD_OK || refuse(reader, text, "file path: ", nard_status_text(status));
}

bool reader_next(struct reader *reader)
{
    struct nard_device_node node;
    bool has_path = false;
    reader->path[0] = 0;
    reader->path_length = reader->disk_size = 0;
    while (!reader->has_ended) {
        size_t at = reader->at;
        nard_status status = nard_device_path_next_node(reader->bytes, reader->end, &reader->at, &node, NULL);
        reader->has_ended = status != NARD_OK;
        /* No whole node is left before the fault that reader_begin found. */
        if (!nard_succeeded(status))
            return false;
        bool is_end = status == NARD_END || node.node_type >> 8 == END;
        if (is_end && has_path)
            return true;
        if (is_end) {
            reader->disk_size = 0;
        } else if (node.node_type == NARD_FILE_PATH) {
            if (!add_path(reader, node))
                return false;
            has_path = true;
        } else if (node.node_type == NARD_HARD_DRIVE) {
            reader->disk = at;
            reader->disk_size = reader->at - at;
        }
    }
    return false;
}
