/* msgpack-c: bytes into its own tree of values, and that tree into bytes again. */
#include <msgpack.h>

static size_t written(msgpack_object value)
{
    msgpack_sbuffer out;
    msgpack_packer packer;
    size_t length;
    msgpack_sbuffer_init(&out);
    msgpack_packer_init(&packer, &out, msgpack_sbuffer_write);
    msgpack_pack_object(&packer, value);
    length = out.size;
    msgpack_sbuffer_destroy(&out);
    return length;
}

/* How many bytes it wrote, or 0 if it could not read. */
size_t msgpack_read_and_write(const char *bytes, size_t length)
{
    msgpack_unpacked values;
    size_t long_ = 0;
    msgpack_unpacked_init(&values);
    if (msgpack_unpack_next(&values, bytes, length, 0) == MSGPACK_UNPACK_SUCCESS)
        long_ = written(values.data);
    msgpack_unpacked_destroy(&values);
    return long_;
}

/* 1, or 0 if it could not read. */
size_t msgpack_read(const char *bytes, size_t length)
{
    msgpack_unpacked values;
    size_t read;
    msgpack_unpacked_init(&values);
    read = msgpack_unpack_next(&values, bytes, length, 0) == MSGPACK_UNPACK_SUCCESS;
    msgpack_unpacked_destroy(&values);
    return read;
}

/* A tree that is kept, for writing by itself. */
static msgpack_unpacked held;

size_t msgpack_hold(const char *bytes, size_t length)
{
    msgpack_unpacked_destroy(&held);
    msgpack_unpacked_init(&held);
    return msgpack_unpack_next(&held, bytes, length, 0) == MSGPACK_UNPACK_SUCCESS;
}

size_t msgpack_write_held(void)
{
    return written(held.data);
}
